// SPDX-License-Identifier: MIT OR Apache-2.0
//! Runs of a small operating system on a hypervisor with shadow paging, which may have a bug.
//!
//! Of each page the hypervisor keeps the guest's entry as it was when it was last read, in shadow
//! pages. There are four copies, for processors with different control registers: a processor uses
//! that of its number modulo 4. TLBs are filled from these. A write to the guest's tables leaves the
//! shadow pages out of date, as where they are not write-protected: what invalidates an entry, and
//! each load of CR3, brings the processor's copy up to date.
use crate::events::{has, Deed, Event, Outcome, Rng, Settings};
use crate::machine::{code_of, field, word_of, Rights};
use std::collections::HashMap;

/// What the hypervisor does wrong, at each second occasion; `Root` and `Pcid` at all.
#[derive(Clone, Copy, PartialEq)]
pub enum Bug {
    None,
    /// INVLPG leaves the processor's TLB as it is: the flush is forgotten.
    Flush,
    /// The same of what a processor is asked to invalidate by another one, which changed the entry.
    Remote,
    /// INVLPG leaves the shadow page out of date.
    Unsync,
    /// MOV CR3 leaves the shadow pages out of date.
    Root,
    /// INVPCID of another PCID drops entries of the current one.
    Pcid,
    /// INVPCID of a whole PCID leaves the pages with odd numbers.
    Part,
    /// The processor goes on with up to three accesses before anything is dropped.
    Early,
    /// Nothing is dropped where a write only took away the write right.
    Right,
}

pub fn bug_of(name: &str) -> Bug {
    match name {
        "flush" => Bug::Flush,
        "remote" => Bug::Remote,
        "unsync" => Bug::Unsync,
        "root" => Bug::Root,
        "pcid" => Bug::Pcid,
        "part" => Bug::Part,
        "early" => Bug::Early,
        "right" => Bug::Right,
        "none" => Bug::None,
        _ => panic!("no bug of that name"),
    }
}

const SPACES: u64 = 3;
const TABLES: u64 = 8;
/// Half of what is done is done to the first few.
const PAGES: u64 = 24;
const FEW: u64 = 4;
const COPIES: usize = 4;
/// Present, writable, of users, accessed and dirty.
const MARKS: u64 = 0x67;

fn root_of(space: u64) -> u64 { (1 + 20 * space) << 12 }
fn pcid_of(space: u64) -> u64 { space + 1 }
fn leaf_word(page: Page) -> u64 {
    word_of(root_of(page.space) + ((3 + page.number / 512 % TABLES) << 12), 1, page.number << 12)
}

#[derive(Clone, Copy, PartialEq, Eq, Hash)]
struct Page { space: u64, number: u64 }

/// What an event invalidates.
#[derive(Clone, Copy)]
enum Stale { Page(Page), Space(u64) }
impl Stale {
    fn has(self, page: &Page) -> bool {
        match self {
            Stale::Page(own) => own == *page,
            Stale::Space(space) => space == page.space,
        }
    }

    fn moved(self, space: u64) -> Stale {
        match self {
            Stale::Page(page) => Stale::Page(Page { space, ..page }),
            Stale::Space(_) => Stale::Space(space),
        }
    }
}

// ---- The hypervisor

struct Hypervisor {
    bug: Bug,
    shadows: [HashMap<Page, u64>; COPIES],
    caches: Vec<HashMap<Page, u64>>,
    /// What each processor drops late, after so many accesses.
    late: Vec<Vec<(Stale, u64)>>,
}
impl Hypervisor {
    fn new(bug: Bug, processors: usize) -> Hypervisor {
        let (caches, late) = (vec![HashMap::new(); processors], vec![vec![]; processors]);
        Hypervisor { bug, shadows: Default::default(), caches, late }
    }

    fn flush(&mut self, p: usize, stale: Stale) { self.caches[p].retain(|page, _| !stale.has(page)) }
    fn synchronise(&mut self, p: usize, stale: Stale) {
        self.shadows[p % COPIES].retain(|page, _| !stale.has(page))
    }

    fn invalidate(&mut self, p: usize, stale: Stale) {
        self.flush(p, stale);
        self.synchronise(p, stale);
    }

    /// Does what an event asks for, or does it wrong.
    fn obey(&mut self, p: usize, space: u64, task: &Task, is_own: bool, is_wrong: bool) {
        let stale = task.stale;
        let is_page = matches!(task.deed, Deed::InvalidatePage { .. });
        let is_root = matches!(task.deed, Deed::LoadRoot { .. });
        let is_pcid = matches!(task.deed, Deed::InvalidatePcid { .. });
        let keeps = matches!(task.deed, Deed::LoadRoot { operand } if has(operand, 63));
        match self.bug {
            Bug::Flush if is_wrong && is_page => self.synchronise(p, stale),
            Bug::Remote if is_wrong && !is_own => self.synchronise(p, stale),
            Bug::Unsync if is_wrong && is_page => self.flush(p, stale),
            Bug::Root if is_wrong && is_root => if !keeps { self.flush(p, stale) },
            Bug::Pcid if is_wrong && is_pcid => self.invalidate(p, stale.moved(space)),
            Bug::Part if is_wrong && is_pcid && matches!(stale, Stale::Space(_)) => self.drop_part(p, stale),
            Bug::Early if is_wrong => self.late[p].push((stale, 3)),
            Bug::Right if is_wrong && task.is_right => {}
            _ => {
                self.synchronise(p, stale);
                if !keeps { self.flush(p, stale) }
            }
        }
    }

    fn drop_part(&mut self, p: usize, stale: Stale) {
        self.caches[p].retain(|page, _| page.number % 2 == 1 || !stale.has(page));
        self.shadows[p % COPIES].retain(|page, _| page.number % 2 == 1 || !stale.has(page));
    }

    fn drop_late(&mut self, p: usize) {
        for (stale, left) in std::mem::take(&mut self.late[p]) {
            if left == 0 { self.invalidate(p, stale) } else { self.late[p].push((stale, left - 1)) }
        }
    }

    /// What an access gives. Before the guest gets a fault its own tables are read.
    fn access(&mut self, settings: &Settings, p: usize, page: Page, flags: u64, word: u64) -> Outcome {
        self.drop_late(p);
        let is_allowed = |entry: u64| has(entry, 0) && Rights::ALL.joined(entry).allow(settings, flags);
        let shadow = self.shadows[p % COPIES].get(&page).copied();
        let cached = self.caches[p].get(&page).copied().or(shadow).filter(|entry| is_allowed(*entry));
        let entry = cached.unwrap_or_else(|| {
            self.invalidate(p, Stale::Page(page));
            word
        });
        if !is_allowed(entry) { return Outcome::Fault(code_of(settings, flags, entry & 1)) }
        if cached.is_none() { self.shadows[p % COPIES].insert(page, entry); }
        self.caches[p].insert(page, entry);
        Outcome::Page(field(entry, 12, settings.bits) | 0x80)
    }
}

// ---- The guest

/// An invalidation that waits for its processor, and the writes that asked for it.
#[derive(Clone)]
struct Task { deed: Deed, stale: Stale, writes: Vec<usize>, is_right: bool }

pub struct Guest {
    pub settings: Settings,
    pub rng: Rng,
    pub events: Vec<Event>,
    /// Which event waits for the end of which, by the places of both: an invalidation for the writes
    /// that asked for it, and, where the guest takes a lock, a write for the one before of its word.
    pub waits: Vec<(usize, usize)>,
    is_locked: bool,
    written: HashMap<u64, usize>,
    hypervisor: Hypervisor,
    memory: HashMap<u64, u64>,
    spaces: Vec<u64>,
    waiting: Vec<Vec<Task>>,
    /// The writes to each space for which a processor drops the whole of it when it loads its root. It is
    /// so of spaces 0 and 2, and of space 1 each is asked at once.
    lazy: Vec<Vec<Vec<usize>>>,
    frames: u64,
}
impl Guest {
    pub fn new(version: u64, processors: usize, seed: u64, bug: Bug, is_locked: bool) -> Guest {
        let mut rng = Rng(seed);
        let starts = (0..processors).map(|_| (root_of(0) | pcid_of(0), rng.percent(50))).collect();
        let settings = Settings { version, bits: 40, flags: rng.below(16) | 2, processors: starts };
        let mut guest = Guest {
            settings, rng, events: vec![], waits: vec![], is_locked,
            written: HashMap::new(),
            hypervisor: Hypervisor::new(bug, processors),
            memory: HashMap::new(),
            spaces: vec![0; processors],
            waiting: vec![vec![]; processors],
            lazy: vec![vec![vec![]; SPACES as usize]; processors],
            frames: 1000,
        };
        for space in 0..SPACES { guest.write_tables(space) }
        guest
    }

    fn write(&mut self, p: usize, address: u64, value: u64) -> usize {
        self.memory.insert(address, value);
        let place = self.events.len();
        self.events.push(Event { processor: p, deed: Deed::Write { address, value } });
        let before = self.written.insert(address, place);
        if self.is_locked { self.waits.extend(before.map(|before| (before, place))) }
        place
    }

    fn write_tables(&mut self, space: u64) {
        let root = root_of(space);
        self.write(0, root, root + 0x1000 | MARKS);
        self.write(0, root + 0x1000, root + 0x2000 | MARKS);
        for table in 0..TABLES { self.write(0, root + 0x2000 + 8 * table, root + ((3 + table) << 12) | MARKS); }
    }

    fn carry_out(&mut self, p: usize, task: &Task, is_own: bool) {
        self.waits.extend(task.writes.iter().map(|write| (*write, self.events.len())));
        self.events.push(Event { processor: p, deed: task.deed });
        let is_always = matches!(self.hypervisor.bug, Bug::Root | Bug::Pcid);
        let is_wrong = is_always || self.rng.percent(50);
        self.hypervisor.obey(p, self.spaces[p], task, is_own, is_wrong);
    }

    /// The processor drops what is stale, and asks the others that may have it.
    fn shoot_down(&mut self, p: usize, stale: Stale, writes: &[usize], is_right: bool) {
        let space = match stale { Stale::Page(page) => page.space, Stale::Space(space) => space };
        let pcid = pcid_of(space);
        for q in 0..self.spaces.len() {
            let is_here = self.spaces[q] == space;
            let deed = match stale {
                Stale::Page(page) if is_here => Deed::InvalidatePage { linear: page.number << 12 },
                Stale::Page(page) => Deed::InvalidatePcid { kind: 0, pcid, linear: page.number << 12 },
                Stale::Space(_) => Deed::InvalidatePcid { kind: 1, pcid, linear: 0 },
            };
            let task = Task { deed, stale, writes: writes.to_vec(), is_right };
            if q == p { self.carry_out(p, &task, true) } else if !is_here && space % 2 == 0 {
                self.lazy[q][space as usize].extend(writes);
            } else { self.waiting[q].push(task) }
        }
    }

    fn change_page(&mut self, p: usize, page: Page) {
        let word = leaf_word(page);
        let old = self.memory.get(&word).copied().unwrap_or(0);
        self.frames += 1;
        let value = match self.rng.below(5) {
            0 => 0,
            1 | 2 if has(old, 0) => old ^ 2,
            _ => self.frames << 12 | MARKS,
        };
        let write = self.write(p, word, value);
        let is_right = has(old, 1) && old ^ 2 == value;
        if has(old, 0) { self.shoot_down(p, Stale::Page(page), &[write], is_right) }
    }

    fn change_pages(&mut self, p: usize, space: u64) {
        let mut writes = vec![];
        for _ in 0..2 + self.rng.below(3) {
            let word = leaf_word(Page { space, number: self.page() });
            self.frames += 1;
            writes.push(self.write(p, word, self.frames << 12 | MARKS));
        }
        self.shoot_down(p, Stale::Space(space), &writes, false);
    }

    fn load_root(&mut self, p: usize, space: u64) {
        let writes = std::mem::take(&mut self.lazy[p][space as usize]);
        let keep = if writes.is_empty() && self.rng.percent(70) { 1 << 63 } else { 0 };
        let deed = Deed::LoadRoot { operand: keep | root_of(space) | pcid_of(space) };
        self.spaces[p] = space;
        self.carry_out(p, &Task { deed, stale: Stale::Space(space), writes, is_right: false }, true);
    }

    fn access(&mut self, p: usize, number: u64) {
        let page = Page { space: self.spaces[p], number };
        let flags = self.rng.pick(&[4, 4, 5, 5, 6]);
        let word = self.memory.get(&leaf_word(page)).copied().unwrap_or(0);
        let outcome = self.hypervisor.access(&self.settings, p, page, flags, word);
        let deed = Deed::Access { flags, linear: number << 12 | 0x80, outcome };
        self.events.push(Event { processor: p, deed });
    }

    fn page(&mut self) -> u64 {
        let count = if self.rng.percent(50) { FEW } else { PAGES };
        self.rng.below(count)
    }

    pub fn step(&mut self) {
        let p = self.rng.below(self.spaces.len() as u64) as usize;
        if !self.waiting[p].is_empty() && self.rng.percent(60) {
            for task in std::mem::take(&mut self.waiting[p]) { self.carry_out(p, &task, false) }
            return;
        }
        let (space, number) = (self.rng.below(SPACES), self.page());
        match self.rng.below(100) {
            0..=7 => self.change_page(p, Page { space, number }),
            8..=10 => self.change_pages(p, space),
            11..=20 if self.waiting[p].is_empty() => self.load_root(p, space),
            _ => self.access(p, number),
        }
    }
}
