// SPDX-License-Identifier: MIT OR Apache-2.0
//! A machine that caches what its processors may cache. Sections are those of the Intel SDM, volume 3.
use crate::events::{has, Deed, Event, Outcome, Rng, Settings};
use std::collections::{BTreeSet, HashMap};

// ---- Paging (4.5 to 4.7)

pub fn field(word: u64, low: u32, high: u32) -> u64 { word & ((1 << high) - 1) & !((1 << low) - 1) }
pub fn shift_of(level: u32) -> u32 { 3 + 9 * level }
pub fn word_of(table: u64, level: u32, linear: u64) -> u64 { table + 8 * (linear >> shift_of(level) & 511) }

#[derive(Clone, Copy, PartialEq)]
pub enum Kind { Absent, Reserved, Table(u64), Leaf { frame: u64, shift: u32 } }
pub fn kind_of(settings: &Settings, level: u32, entry: u64) -> Kind {
    let large = has(entry, 7);
    let is_reserved = field(entry, settings.bits, 52) != 0
        || has(entry, 63) && !settings.execute_disable()
        || large && level == 4
        || large && (level == 2 || level == 3) && field(entry, 13, shift_of(level)) != 0;
    if !has(entry, 0) { Kind::Absent } else if is_reserved { Kind::Reserved } else if level == 1 || large {
        Kind::Leaf { frame: field(entry, shift_of(level), settings.bits), shift: shift_of(level) }
    } else { Kind::Table(field(entry, 12, settings.bits)) }
}

#[derive(Clone, Copy, PartialEq, Eq, PartialOrd, Ord, Hash)]
pub struct Rights { pub write: bool, pub user: bool, pub no_execute: bool }
impl Rights {
    pub const ALL: Rights = Rights { write: true, user: true, no_execute: false };
    pub fn joined(self, entry: u64) -> Rights {
        Rights {
            write: self.write && has(entry, 1),
            user: self.user && has(entry, 2),
            no_execute: self.no_execute || has(entry, 63),
        }
    }

    pub fn allow(self, settings: &Settings, flags: u64) -> bool {
        let (operation, user, check) = (flags & 3, has(flags, 2), has(flags, 3));
        let prevented = self.user && settings.access_prevention() && !check;
        match (user, operation) {
            (true, 0) => self.user,
            (true, 1) => self.user && self.write,
            (true, _) => self.user && !self.no_execute,
            (false, 0) => !prevented,
            (false, 1) => !prevented && (self.write || !settings.write_protect()),
            (false, _) => !(self.user && settings.fetch_prevention()) && !self.no_execute,
        }
    }
}

/// The error code of a fault: bits 0 and 3 are its cause (4.7).
pub fn code_of(settings: &Settings, flags: u64, cause: u64) -> u64 {
    let fetches = settings.fetch_prevention() || settings.execute_disable();
    let is = |condition: bool, bit: u64| if condition { bit } else { 0 };
    cause | is(flags & 3 == 1, 2) | is(has(flags, 2), 4) | is(flags & 3 == 2 && fetches, 16)
}

// ---- A machine (4.10)

/// An entry of a paging-structure cache, for addresses that share the bits from `shift` up.
#[derive(Clone, Copy, PartialEq, Eq, PartialOrd, Ord, Hash)]
pub struct Structure { pub pcid: u64, pub level: u32, pub prefix: u64, pub table: u64, pub rights: Rights }
#[derive(Clone, Copy, PartialEq, Eq, PartialOrd, Ord, Hash)]
pub struct Translation { pub pcid: u64, pub shift: u32, pub page: u64, pub frame: u64, pub rights: Rights, pub global: bool, pub dirty: bool }

#[derive(Clone, PartialEq, Eq, Hash)]
pub struct Processor {
    pub root: u64,
    pub pcid: u64,
    pub global_pages: bool,
    pub structures: BTreeSet<Structure>,
    pub translations: BTreeSet<Translation>,
}

pub fn bits_from(linear: u64, shift: u32) -> u64 { field(linear, 0, 48) >> shift }
impl Processor {
    pub fn drop_page(&mut self, pcid: u64, linear: u64, globals: bool) {
        self.translations.retain(|t| {
            bits_from(linear, t.shift) != t.page || if t.global { !globals } else { t.pcid != pcid }
        });
    }

    pub fn drop_prefix(&mut self, pcid: u64, linear: u64) {
        self.structures.retain(|s| s.pcid != pcid || bits_from(linear, shift_of(s.level)) != s.prefix);
    }

    pub fn drop_space(&mut self, pcid: u64) {
        self.structures.retain(|s| s.pcid != pcid);
        self.translations.retain(|t| t.global || t.pcid != pcid);
    }

    pub fn drop_all(&mut self, globals: bool) {
        self.structures.clear();
        self.translations.retain(|t| t.global && !globals);
    }
}

/// What a walk comes to.
pub enum Step { Assist { word: u64, dirty: bool }, Fault(u64), Done(Translation) }

#[derive(Clone)]
pub struct Machine { pub settings: Settings, pub memory: HashMap<u64, u64>, pub processors: Vec<Processor>, pub bits: u32 }
impl Machine {
    pub fn new(settings: &Settings) -> Machine {
        let processors = settings.processors.iter().map(|(operand, on)| Processor {
            root: field(*operand, 12, settings.bits),
            pcid: operand & 4095,
            global_pages: *on,
            structures: BTreeSet::new(),
            translations: BTreeSet::new(),
        });
        let (processors, bits) = (processors.collect(), settings.bits);
        Machine { settings: settings.clone(), memory: HashMap::new(), processors, bits }
    }

    pub fn word(&self, address: u64) -> u64 { self.memory.get(&address).copied().unwrap_or(0) }

    /// What an event changes, but for what it may have read. `keeps` leaves caches as they are.
    pub fn change(&mut self, event: &Event, keeps: bool) {
        let version = self.settings.has_assists();
        let processor = &mut self.processors[event.processor];
        let pcid = processor.pcid;
        match event.deed {
            Deed::Write { address, value } => { self.memory.insert(address, value); }
            Deed::Assist { flags, word, .. } => {
                assert!(version);
                *self.memory.entry(word).or_default() |= 1 << 5 | (flags >> 4 & 1) << 6;
            }
            Deed::Access { outcome: Outcome::Page(_), .. } => {}
            Deed::Access { linear, .. } => {
                processor.drop_prefix(pcid, linear);
                processor.drop_page(pcid, linear, true);
            }
            Deed::LoadRoot { operand } => {
                processor.root = field(operand, 12, self.bits);
                processor.pcid = operand & 4095;
                if !has(operand, 63) && !keeps { processor.drop_space(operand & 4095) }
            }
            Deed::InvalidatePage { linear } => if !keeps {
                processor.structures.retain(|s| s.pcid != pcid);
                processor.drop_page(pcid, linear, true);
            },
            Deed::InvalidatePcid { kind, pcid, linear } => if !keeps { match kind {
                0 => { processor.drop_prefix(pcid, linear); processor.drop_page(pcid, linear, false) }
                1 => processor.drop_space(pcid),
                2 => processor.drop_all(true),
                _ => processor.drop_all(false),
            } },
            Deed::SetGlobalPages { on } => {
                if on != processor.global_pages { processor.drop_all(true) }
                processor.global_pages = on;
            }
        }
    }

    /// Goes on from a table: what is read at `level`, and the entry that is cached of it.
    pub fn read(&self, linear: u64, level: u32, table: u64, rights: Rights) -> (u64, u64, Kind, Rights) {
        let word = word_of(table, level, linear);
        let entry = self.word(word);
        (word, entry, kind_of(&self.settings, level, entry), rights.joined(entry))
    }

    /// Where a walk of now may begin: at the root or at what is cached.
    pub fn starts(&self, p: usize, linear: u64) -> Vec<(u32, u64, Rights)> {
        let processor = &self.processors[p];
        let mut starts = vec![(4, processor.root, Rights::ALL)];
        for level in 2..=4 {
            let prefix = bits_from(linear, shift_of(level));
            starts.extend(processor.structures.iter().filter(|s| {
                s.pcid == processor.pcid && s.level == level && s.prefix == prefix
            }).map(|s| (level - 1, s.table, s.rights)));
        }
        starts
    }

    pub fn translations(&self, p: usize, linear: u64) -> Vec<Translation> {
        let processor = &self.processors[p];
        processor.translations.iter().filter(|t| {
            (t.global || t.pcid == processor.pcid) && bits_from(linear, t.shift) == t.page
        }).copied().collect()
    }

    /// A walk at random, which fills caches as it goes.
    pub fn walk(&mut self, p: usize, linear: u64, flags: u64, rng: &mut Rng) -> Step {
        let starts = self.starts(p, linear);
        let (mut level, mut table, mut rights) = rng.pick(&starts);
        loop {
            let (word, entry, kind, joined) = self.read(linear, level, table, rights);
            let assists = self.settings.has_assists();
            let pcid = self.processors[p].pcid;
            match kind {
                Kind::Absent => return Step::Fault(0),
                Kind::Reserved => return Step::Fault(9),
                _ if assists && !has(entry, 5) => return Step::Assist { word, dirty: false },
                Kind::Table(next) => {
                    let prefix = bits_from(linear, shift_of(level));
                    let cached = Structure { pcid, level, prefix, table: next, rights: joined };
                    self.processors[p].structures.insert(cached);
                    (level, table, rights) = (level - 1, next, joined);
                }
                Kind::Leaf { frame, shift } => {
                    let is_write = flags & 3 == 1 && joined.allow(&self.settings, flags);
                    if assists && is_write && !has(entry, 6) { return Step::Assist { word, dirty: true } }
                    let global = has(entry, 8) && self.processors[p].global_pages;
                    let (page, dirty) = (bits_from(linear, shift), has(entry, 6));
                    let made = Translation { pcid, shift, page, frame, rights: joined, global, dirty };
                    self.processors[p].translations.insert(made);
                    return Step::Done(made);
                }
            }
        }
    }

    pub fn answer(&self, t: &Translation, linear: u64, flags: u64) -> Outcome {
        if t.rights.allow(&self.settings, flags) { Outcome::Page(t.frame | field(linear, 0, t.shift)) }
        else { Outcome::Fault(code_of(&self.settings, flags, 1)) }
    }

    /// An access at random, or the assist that it needs first.
    pub fn access(&mut self, p: usize, linear: u64, flags: u64, rng: &mut Rng) -> Deed {
        let cached = self.translations(p, linear);
        let assists = self.settings.has_assists();
        if !cached.is_empty() && rng.percent(70) {
            let t = rng.pick(&cached);
            let is_write = flags & 3 == 1 && t.rights.allow(&self.settings, flags);
            if !(assists && is_write && !t.dirty) {
                return Deed::Access { flags, linear, outcome: self.answer(&t, linear, flags) };
            }
        }
        match self.walk(p, linear, flags, rng) {
            Step::Assist { word, dirty } => Deed::Assist { flags: flags | (dirty as u64) << 4, linear, word },
            Step::Fault(cause) => {
                let outcome = Outcome::Fault(code_of(&self.settings, flags, cause));
                Deed::Access { flags, linear, outcome }
            }
            Step::Done(t) => Deed::Access { flags, linear, outcome: self.answer(&t, linear, flags) },
        }
    }

    // All that may be cached, and what then may happen.

    /// Fills the caches with all that may be read now for these addresses.
    pub fn fill(&mut self, linears: &[u64]) {
        for p in 0..self.processors.len() {
            for linear in linears {
                for level in [4, 3, 2, 1] {
                    for (_, table, rights) in self.starts(p, *linear).into_iter().filter(|s| s.0 == level) {
                        self.fill_from(p, *linear, level, table, rights);
                    }
                }
            }
        }
    }

    pub fn fill_from(&mut self, p: usize, linear: u64, level: u32, table: u64, rights: Rights) {
        let (_, entry, kind, rights) = self.read(linear, level, table, rights);
        if self.settings.has_assists() && !has(entry, 5) { return }
        let processor = &mut self.processors[p];
        let pcid = processor.pcid;
        match kind {
            Kind::Table(table) => {
                let prefix = bits_from(linear, shift_of(level));
                processor.structures.insert(Structure { pcid, level, prefix, table, rights });
            }
            Kind::Leaf { frame, shift } => {
                let global = has(entry, 8) && processor.global_pages;
                let (page, dirty) = (bits_from(linear, shift), has(entry, 6));
                processor.translations.insert(Translation { pcid, shift, page, frame, rights, global, dirty });
            }
            _ => {}
        }
    }

    /// Whether an event may come next, where the caches hold all that they may.
    pub fn may(&self, event: &Event) -> bool {
        let p = event.processor;
        match event.deed {
            Deed::Access { flags, linear, outcome } => {
                let code = |cause| Outcome::Fault(code_of(&self.settings, flags, cause));
                let is_write = flags & 3 == 1;
                let by_page = self.translations(p, linear).iter().any(|t| {
                    let is_done = matches!(outcome, Outcome::Page(_));
                    self.answer(t, linear, flags) == outcome
                        && !(self.settings.has_assists() && is_done && is_write && !t.dirty)
                });
                by_page || self.starts(p, linear).iter().any(|(level, table, rights)| {
                    match self.read(linear, *level, *table, *rights).2 {
                        Kind::Absent => outcome == code(0),
                        Kind::Reserved => outcome == code(9),
                        _ => false,
                    }
                })
            }
            Deed::Assist { flags, linear, word } => {
                self.starts(p, linear).iter().any(|(level, table, rights)| {
                    let (address, _, kind, rights) = self.read(linear, *level, *table, *rights);
                    let is_leaf = matches!(kind, Kind::Leaf { .. });
                    let dirty = has(flags, 4);
                    let allowed = rights.allow(&self.settings, flags & 15);
                    address == word && (is_leaf || matches!(kind, Kind::Table(_)))
                        && (!dirty || is_leaf && allowed)
                })
            }
            _ => true,
        }
    }
}
