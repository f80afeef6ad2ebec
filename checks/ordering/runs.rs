// SPDX-License-Identifier: MIT OR Apache-2.0
//! Runs of the machine in which all processors write few words at random, and of a small operating
//! system.
use crate::events::{has, Deed, Event, Rng, Settings};
use crate::machine::{word_of, Machine};

/// What the machine leaves out.
#[derive(Clone, Copy, PartialEq)]
pub enum Bug { None, Invlpg, Remote, Invpcid, Right }

pub fn bug_of(name: &str) -> Bug {
    match name {
        "invlpg" => Bug::Invlpg,
        "remote" => Bug::Remote,
        "invpcid" => Bug::Invpcid,
        "right" => Bug::Right,
        "none" => Bug::None,
        _ => panic!("no bug of that name"),
    }
}

pub struct Run { pub machine: Machine, pub rng: Rng, pub events: Vec<Event>, pub bug: Bug }
pub const PRESENT: u64 = 7;
pub const ROOT: u64 = 0x1000;
impl Run {
    pub fn new(version: u64, processors: usize, seed: u64, bug: Bug) -> Run {
        let mut rng = Rng(seed);
        let flags = rng.below(16);
        let starts = (0..processors).map(|_| (ROOT, rng.percent(50))).collect();
        let settings = Settings { version, bits: 40, flags: flags | 2, processors: starts };
        Run { machine: Machine::new(&settings), rng, events: vec![], bug }
    }

    pub fn push(&mut self, processor: usize, deed: Deed) {
        let event = Event { processor, deed };
        self.machine.change(&event, false);
        self.events.push(event);
    }

    /// An invalidation that the machine may leave out.
    pub fn push_drop(&mut self, processor: usize, deed: Deed, is_left_out: bool) {
        let event = Event { processor, deed };
        let keeps = is_left_out && self.rng.percent(50);
        self.machine.change(&event, keeps);
        self.events.push(event);
    }

    pub fn accessed(&mut self, p: usize, linear: u64, flags: u64) {
        let deed = self.machine.access(p, linear, flags, &mut self.rng);
        self.push(p, deed);
    }

    // Few words, which all write at random.

    pub fn random_entry(&mut self, level: u64) -> u64 {
        let rng = &mut self.rng;
        let marks = if rng.percent(60) { 0x60 } else { rng.below(4) << 5 };
        let rights = if rng.percent(70) { 6 } else { rng.below(4) << 1 };
        let global = if rng.percent(30) { 1 << 8 } else { 0 };
        match rng.below(12) {
            0 => 0,
            1 => 1 << 41 | 1,
            2 if level < 4 && level > 1 => rng.below(3) << 30 | 0x81 | rights | marks | global,
            _ if level == 1 => (16 + rng.below(4)) << 12 | 1 | rights | marks | global,
            _ => (1 + rng.below(2) + 2 * (5 - level)) << 12 | 1 | rights | marks,
        }
    }

    pub fn random_write(&mut self, p: usize) {
        let level = 4 - self.rng.below(4);
        let table = if level == 4 { 1 + self.rng.below(2) } else { self.rng.below(2) + 1 + 2 * (4 - level) };
        let linear = self.random_linear();
        let address = word_of(table << 12, level as u32, linear);
        let value = self.random_entry(level);
        self.push(p, Deed::Write { address, value });
    }

    pub fn random_linear(&mut self) -> u64 {
        let pages = [0, 0x1000, 0x20_0000, 0x4000_0000];
        self.rng.pick(&pages) + 0x123
    }

    pub fn random_drop(&mut self, p: usize) {
        let linear = self.random_linear() & !4095;
        let pcid = self.rng.below(3);
        let deed = match self.rng.below(10) {
            0..=3 => Deed::InvalidatePage { linear },
            4 => Deed::InvalidatePcid { kind: 0, pcid, linear },
            5 => Deed::InvalidatePcid { kind: 1, pcid, linear: 0 },
            6 => Deed::InvalidatePcid { kind: 2 + self.rng.below(2), pcid: 0, linear: 0 },
            7 => Deed::SetGlobalPages { on: self.rng.percent(50) },
            _ => {
                let keep = self.rng.below(2) << 63;
                Deed::LoadRoot { operand: keep | (1 + self.rng.below(2)) << 12 | pcid }
            }
        };
        self.push(p, deed);
    }

    pub fn machine_step(&mut self) {
        let p = self.rng.below(self.machine.processors.len() as u64) as usize;
        for _ in 0..2 {
            let q = self.rng.below(self.machine.processors.len() as u64) as usize;
            let linear = self.random_linear();
            self.machine.walk(q, linear, 4, &mut self.rng);
        }
        match self.rng.below(100) {
            0..=24 => self.random_write(p),
            25..=39 => self.random_drop(p),
            _ => {
                let (linear, flags) = (self.random_linear(), self.rng.pick(&[4, 5, 6, 0, 1, 2, 8, 9]));
                self.accessed(p, linear, flags);
            }
        }
    }
}

// ---- A small operating system

pub const SPACES: u64 = 4;
pub const TABLES: u64 = 8;
pub struct System { pub run: Run, pub spaces: Vec<u64>, pub waiting: Vec<Vec<Deed>>, pub pages: u64, pub frames: u64 }
impl System {
    pub fn root(space: u64) -> u64 { (1 + 20 * space) << 12 }
    pub fn leaf_word(&self, space: u64, page: u64) -> u64 {
        word_of(System::root(space) + ((3 + page / 512 % TABLES) << 12), 1, page << 12)
    }

    pub fn new(mut run: Run) -> System {
        let count = run.machine.processors.len();
        let marks = 0x67;
        for space in 0..SPACES {
            let root = System::root(space);
            run.push(0, Deed::Write { address: root, value: root + 0x1000 | marks });
            run.push(0, Deed::Write { address: root + 0x1000, value: root + 0x2000 | marks });
            for table in 0..TABLES {
                let value = root + ((3 + table) << 12) | marks;
                run.push(0, Deed::Write { address: root + 0x2000 + 8 * table, value });
            }
        }
        System { run, spaces: vec![0; count], waiting: vec![vec![]; count], pages: 64, frames: 1000 }
    }

    pub fn change_page(&mut self, p: usize, space: u64, page: u64) {
        let word = self.leaf_word(space, page);
        let old = self.run.machine.word(word);
        let marks = self.run.rng.below(4) << 5;
        self.frames += 1;
        let value = match self.run.rng.below(5) {
            0 => 0,
            1 | 2 if has(old, 0) => old ^ 2,
            _ => self.frames << 12 | PRESENT | marks,
        };
        self.run.push(p, Deed::Write { address: word, value });
        if !has(old, 0) { return }
        self.drop_page(p, space, page, has(old, 1) && old ^ 2 == value);
    }

    /// The processor drops what it has of a page, and asks the others that may have it.
    pub fn drop_page(&mut self, p: usize, space: u64, page: u64, is_right: bool) {
        let linear = page << 12;
        let bug = self.run.bug;
        for q in 0..self.spaces.len() {
            let deed = if self.spaces[q] == space { Deed::InvalidatePage { linear } }
                else { Deed::InvalidatePcid { kind: 0, pcid: space + 1, linear } };
            if q == p {
                let is_here = matches!(deed, Deed::InvalidatePage { .. });
                let left_out = bug == Bug::Invlpg && is_here || bug == Bug::Invpcid && !is_here || bug == Bug::Right && is_right;
                self.run.push_drop(p, deed, left_out);
            } else {
                self.waiting[q].push(deed);
            }
        }
    }

    pub fn step(&mut self) {
        let p = self.run.rng.below(self.spaces.len() as u64) as usize;
        if !self.waiting[p].is_empty() && self.run.rng.percent(60) {
            for deed in std::mem::take(&mut self.waiting[p]) {
                let left_out = match (self.run.bug, deed) {
                    (Bug::Remote, _) => true,
                    (Bug::Invlpg, Deed::InvalidatePage { .. }) => true,
                    (Bug::Invpcid, Deed::InvalidatePcid { .. }) => true,
                    _ => false,
                };
                self.run.push_drop(p, deed, left_out);
            }
            return;
        }
        let page = self.run.rng.below(self.pages);
        match self.run.rng.below(100) {
            0..=9 => { let space = self.run.rng.below(SPACES); self.change_page(p, space, page) }
            10..=13 if self.waiting[p].is_empty() => {
                let space = self.run.rng.below(SPACES);
                let keep = if self.run.rng.percent(70) { 1 << 63 } else { 0 };
                self.spaces[p] = space;
                self.run.push(p, Deed::LoadRoot { operand: keep | System::root(space) | (space + 1) });
            }
            _ => {
                let flags = self.run.rng.pick(&[4, 4, 5, 5, 6]);
                self.run.accessed(p, page << 12 | 0x80, flags);
            }
        }
    }
}
