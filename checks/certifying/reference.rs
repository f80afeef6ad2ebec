// SPDX-License-Identifier: MIT OR Apache-2.0
//! A reference for `pcid-audit certify`, which shares no code with the program: it keeps, for each
//! processor and page, all that the processor may have cached at a moment, each entry with the
//! freshest moments at which it can have been read. So it searches all lists of moments at once.
//! Sections are those of the Intel SDM, volume 3, as docs/MODEL.md names them.
//!
//! usage: reference certify [FILE]
use std::collections::HashMap;
use std::io::Read;
use std::process::ExitCode;

type Moments = Vec<usize>;
// ---- Records

#[derive(Clone, Copy, PartialEq)]
enum Operation { Read, Write, Fetch }
/// How a processor accesses an address (4.6).
#[derive(Clone, Copy)]
struct Access { operation: Operation, user: bool, alignment_check: bool }
#[derive(Clone, Copy, PartialEq)]
enum Outcome { Page(u64), Fault(u64) }
#[derive(Clone, Copy)]
enum Deed {
    Write { address: u64, value: u64 },
    Access { access: Access, linear: u64, outcome: Outcome },
    Assist { access: Access, linear: u64, word: u64, dirty: bool },
    LoadRoot { operand: u64 },
    InvalidatePage { linear: u64 },
    InvalidatePcid { kind: u64, pcid: u64, linear: u64 },
    SetGlobalPages { on: bool },
}

#[derive(Clone, Copy)]
struct Event { processor: usize, deed: Deed }
struct Settings {
    version: u64,
    address_bits: u32,
    write_protect: bool,
    execute_disable: bool,
    fetch_prevention: bool,
    access_prevention: bool,
}

/// The control registers of a processor that paging looks at (4.5, 4.10.1).
#[derive(Clone, Copy)]
struct Control { root: u64, pcid: u64, global_pages: bool }
/// A value, from this moment on, and the event that wrote it.
struct Version<T> { from: usize, value: T, writer: Option<usize> }
struct Record {
    settings: Settings,
    events: Vec<Event>,
    segments: u64,
    words: HashMap<u64, Vec<Version<u64>>>,
    controls: Vec<Vec<Version<Control>>>,
}

fn has_bit(word: u64, bit: u32) -> bool { word >> bit & 1 == 1 }
/// Bits from `low` up to, not with, `high`, in their place.
fn field(word: u64, low: u32, high: u32) -> u64 { word & ((1 << high) - 1) & !((1 << low) - 1) }
/// The latest value at a moment.
fn at_moment<T>(versions: &[Version<T>], moment: usize) -> Option<&Version<T>> {
    versions[..versions.partition_point(|version| version.from <= moment)].last()
}

impl Record {
    fn word_version(&self, address: u64, moment: usize) -> Option<&Version<u64>> {
        at_moment(self.words.get(&address)?, moment)
    }

    /// Memory is zero at the start (profile).
    fn word(&self, address: u64, moment: usize) -> u64 {
        self.word_version(address, moment).map_or(0, |version| version.value)
    }

    fn control(&self, processor: usize, moment: usize) -> Control {
        let versions = &self.controls[processor];
        at_moment(versions, moment).expect("a processor has control registers at the start").value
    }

    fn control_of(operand: u64, global_pages: bool, address_bits: u32) -> Control {
        Control { root: field(operand, 12, address_bits), pcid: field(operand, 0, 12), global_pages }
    }

    /// Takes the next event, and what it leaves in memory and control registers.
    fn push(&mut self, event: Event) {
        let number = self.events.len();
        let control = self.control(event.processor, number);
        let (from, writer) = (number + 1, Some(number));
        match event.deed {
            Deed::Write { address, value } => {
                self.words.entry(address).or_default().push(Version { from, value, writer })
            }
            Deed::Assist { word, dirty, .. } => {
                let value = self.word(word, number) | 1 << 5 | u64::from(dirty) << 6;
                self.words.entry(word).or_default().push(Version { from, value, writer })
            }
            Deed::LoadRoot { operand } => {
                let bits = self.settings.address_bits;
                let value = Record::control_of(operand, control.global_pages, bits);
                self.controls[event.processor].push(Version { from, value, writer })
            }
            Deed::SetGlobalPages { on } => {
                let value = Control { global_pages: on, ..control };
                self.controls[event.processor].push(Version { from, value, writer })
            }
            _ => {}
        }
        self.events.push(event);
    }
}

// ---- Reading (docs/FORMAT.md)

type Refusal = String;
struct Source<'a> { bytes: &'a [u8], at: usize }
fn demand(holds: bool, refusal: &str) -> Result<(), Refusal> {
    if holds { Ok(()) } else { Err(refusal.to_string()) }
}

impl Source<'_> {
    fn number(&mut self, size: usize) -> Result<u64, Refusal> {
        demand(self.at + size <= self.bytes.len(), "8 truncated")?;
        let field = &self.bytes[self.at..self.at + size];
        self.at += size;
        Ok(field.iter().rev().fold(0, |number, byte| number << 8 | u64::from(*byte)))
    }

    fn bounded(&mut self, size: usize, least: u64, most: u64, refusal: &str) -> Result<u64, Refusal> {
        let number = self.number(size)?;
        demand(least <= number && number <= most, refusal)?;
        Ok(number)
    }

    fn header(&mut self) -> Result<(Record, u64), Refusal> {
        let name = "3 header field";
        let magic = self.number(8)?;
        demand(magic == u64::from_le_bytes(*b"PGRECORD"), "1 magic")?;
        let version = self.bounded(2, 1, 2, "2 version")?;
        let address_bits = self.bounded(1, 36, 52, name)? as u32;
        let flags = self.bounded(1, 0, 15, name)?;
        let most = if version == 1 { 64 } else { 1024 };
        let processors = self.bounded(version as usize, 1, most, name)?;
        let segment = self.bounded(4, 1, 65536, name)?;
        let settings = Settings {
            version,
            address_bits,
            write_protect: has_bit(flags, 0),
            execute_disable: has_bit(flags, 1),
            fetch_prevention: has_bit(flags, 2),
            access_prevention: has_bit(flags, 3),
        };
        let mut controls = vec![];
        for _ in 0..processors {
            let operand = self.bounded(8, 0, (1 << address_bits) - 1, name)?;
            let on = self.bounded(1, 0, 1, name)? == 1;
            let value = Record::control_of(operand, on, address_bits);
            controls.push(vec![Version { from: 0, value, writer: None }]);
        }
        let (events, words) = (vec![], HashMap::new());
        Ok((Record { settings, events, segments: 0, words, controls }, segment))
    }

    fn record(&mut self) -> Result<Record, Refusal> {
        let (mut record, size) = self.header()?;
        let mut is_short = false;
        while self.bounded(1, 1, 2, "6 tag")? == 1 {
            demand(!is_short, "5 segment count")?;
            demand(self.number(4)? == record.segments, "4 segment number")?;
            let count = self.bounded(4, 1, size, "5 segment count")?;
            is_short = count < size;
            record.segments += 1;
            for _ in 0..count {
                let event = self.event(&record)?;
                record.push(event);
            }
        }
        demand(self.number(4)? == record.events.len() as u64, "9 total")?;
        demand(self.at == self.bytes.len(), "10 bytes after the end")?;
        Ok(record)
    }

    fn event(&mut self, record: &Record) -> Result<Event, Refusal> {
        let version = record.settings.version;
        let tag = self.bounded(1, 0x10, 0x14 + version, "6 tag")?;
        let processor = self.number(version as usize)? as usize;
        let mut flags = 0;
        let deed = match tag {
            0x10 => Deed::Write { address: self.number(8)?, value: self.number(8)? },
            0x11 => {
                flags = self.number(1)?;
                self.access(flags)?
            }
            0x12 => Deed::LoadRoot { operand: self.number(8)? },
            0x13 => Deed::InvalidatePage { linear: self.number(8)? },
            0x14 => {
                let (kind, pcid) = (self.number(1)?, self.number(2)?);
                Deed::InvalidatePcid { kind, pcid, linear: self.number(8)? }
            }
            0x15 => Deed::SetGlobalPages { on: self.bounded(1, 0, 1, "6 tag")? == 1 },
            _ => {
                flags = self.number(1)?;
                let (linear, word) = (self.number(8)?, self.number(8)?);
                self.moments()?;
                Deed::Assist { access: access_of(flags), linear, word, dirty: has_bit(flags, 4) }
            }
        };
        let event = Event { processor, deed };
        match broken_rule(record, &event, flags) {
            0 => Ok(event),
            rule => Err(format!("7 malformed event {} rule {rule}", record.events.len())),
        }
    }

    fn access(&mut self, flags: u64) -> Result<Deed, Refusal> {
        let linear = self.number(8)?;
        let outcome = match self.bounded(1, 0, 1, "6 tag")? {
            0 => Outcome::Page(self.number(8)?),
            _ => Outcome::Fault(self.number(2)?),
        };
        self.moments()?;
        Ok(Deed::Access { access: access_of(flags), linear, outcome })
    }

    /// Moments are read, as they may be cut short, and left out of the event.
    fn moments(&mut self) -> Result<(), Refusal> {
        for _ in 0..self.bounded(1, 1, 4, "6 tag")? { self.number(4)?; }
        Ok(())
    }
}

fn access_of(flags: u64) -> Access {
    let operation = match flags & 3 {
        0 => Operation::Read,
        1 => Operation::Write,
        _ => Operation::Fetch,
    };
    Access { operation, user: has_bit(flags, 2), alignment_check: has_bit(flags, 3) }
}

/// Whether bits 63:47 are alike (4.5).
fn is_canonical(linear: u64) -> bool { linear >> 47 == 0 || linear >> 47 == (1 << 17) - 1 }
/// The least rule that an event breaks, 0 for none.
fn broken_rule(record: &Record, event: &Event, flags: u64) -> u8 {
    let bits = record.settings.address_bits;
    let is_word = |address: u64| address % 8 == 0 && address >> bits == 0;
    let is_broken = |rule: u8| match (rule, event.deed) {
        (1, _) => event.processor >= record.controls.len(),
        (2, Deed::Write { address, .. }) => !is_word(address),
        (2, Deed::Assist { word, .. }) => !is_word(word),
        (3, Deed::Access { linear, .. } | Deed::Assist { linear, .. }) => !is_canonical(linear),
        (3, Deed::InvalidatePage { linear }) => !is_canonical(linear),
        (3, Deed::InvalidatePcid { kind: 0, linear, .. }) => !is_canonical(linear),
        (4, Deed::LoadRoot { operand }) => field(operand, bits, 63) != 0,
        (5, Deed::InvalidatePcid { kind, pcid, linear }) => {
            kind > 3 || pcid > 4095 || kind > 1 && pcid != 0 || kind > 0 && linear != 0
        }
        (6, Deed::Access { .. }) => flags & 3 == 3 || flags >> 4 != 0,
        (6, Deed::Assist { dirty, .. }) => flags & 3 == 3 || flags >> 5 != 0 || dirty && flags & 3 != 1,
        _ => false,
    };
    (1..=6).find(|rule| is_broken(*rule)).unwrap_or(0)
}

// ---- Paging (4.5 to 4.7)

#[derive(Clone, Copy, PartialEq)]
enum Kind { Absent, Reserved, Table { address: u64 }, Leaf { frame: u64, shift: u32 } }
/// The lowest bit of a linear address that picks an entry at a level (4.5).
fn level_shift(level: usize) -> u32 { 3 + 9 * level as u32 }
fn entry_address(table: u64, level: usize, linear: u64) -> u64 { table + 8 * (linear >> level_shift(level) & 511) }
/// Reserved bits of a present entry (4.5.4).
fn is_reserved(settings: &Settings, level: usize, entry: u64) -> bool {
    let large = has_bit(entry, 7);
    field(entry, settings.address_bits, 52) != 0
        || has_bit(entry, 63) && !settings.execute_disable
        || large && level == 4
        || large && (level == 2 || level == 3) && field(entry, 13, level_shift(level)) != 0
}

/// What an entry is; of one with P=0 no other bit counts (4.5.4).
fn kind_of(settings: &Settings, level: usize, entry: u64) -> Kind {
    if !has_bit(entry, 0) { Kind::Absent } else if is_reserved(settings, level, entry) {
        Kind::Reserved
    } else if level == 1 || has_bit(entry, 7) {
        let shift = level_shift(level);
        Kind::Leaf { frame: field(entry, shift, settings.address_bits), shift }
    } else { Kind::Table { address: field(entry, 12, settings.address_bits) } }
}

#[derive(Clone, Copy, PartialEq)]
struct Rights { write: bool, user: bool, execute_disable: bool }
impl Rights {
    const ALL: Rights = Rights { write: true, user: true, execute_disable: false };

    /// R/W and U/S count where every entry has them, XD where any has (4.6).
    fn joined(self, entry: u64) -> Rights {
        Rights {
            write: self.write && has_bit(entry, 1),
            user: self.user && has_bit(entry, 2),
            execute_disable: self.execute_disable || has_bit(entry, 63),
        }
    }

    /// Which accesses the rights allow (4.6.1).
    fn allow(self, settings: &Settings, access: Access) -> bool {
        let prevented = self.user && settings.access_prevention && !access.alignment_check;
        match (access.user, access.operation) {
            (true, Operation::Read) => self.user,
            (true, Operation::Write) => self.user && self.write,
            (true, Operation::Fetch) => self.user && !self.execute_disable,
            (false, Operation::Read) => !prevented,
            (false, Operation::Write) => !prevented && (self.write || !settings.write_protect),
            (false, Operation::Fetch) => !(self.user && settings.fetch_prevention) && !self.execute_disable,
        }
    }
}

/// The error code of a page fault, with these bits for its cause (4.7).
fn fault_code(settings: &Settings, access: Access, cause: u64) -> u64 {
    let tells_fetch = settings.fetch_prevention || settings.execute_disable;
    cause
        | u64::from(access.operation == Operation::Write) << 1
        | u64::from(access.user) << 2
        | u64::from(access.operation == Operation::Fetch && tells_fetch) << 4
}

// ---- Caches (4.10)

/// A structure entry for the address under judgement, with the rights so far (4.10.3.1).
#[derive(Clone)]
struct StructureEntry { level: usize, pcid: u64, table: u64, rights: Rights, moments: Moments }
/// A translation for the address under judgement (4.10.2).
#[derive(Clone)]
struct Translation {
    pcid: u64,
    frame: u64,
    shift: u32,
    rights: Rights,
    global: bool,
    dirty: bool,
    moments: Moments,
}

/// An entry that a walk may read at a moment, and by which moments it comes there.
struct Reading { level: usize, address: u64, value: u64, kind: Kind, rights: Rights, moments: Moments }
/// All that one processor may have cached for one address just before the next event.
struct Cached<'a> {
    record: &'a Record,
    processor: usize,
    linear: u64,
    next: usize,
    structures: Vec<StructureEntry>,
    translations: Vec<Translation>,
}

/// Whether two addresses lie in one page of 2^shift bytes (4.10.2.1).
fn is_same_page(one: u64, other: u64, shift: u32) -> bool { field(one ^ other, shift, 48) == 0 }
impl<'a> Cached<'a> {
    /// Caches are empty at the start (profile).
    fn new(record: &'a Record, processor: usize, linear: u64) -> Self {
        Cached { record, processor, linear, next: 0, structures: vec![], translations: vec![] }
    }

    /// What may be read at a level now: at level 4 from the root, below it from a structure entry
    /// of the current PCID (4.10.3.2).
    fn readings(&self, level: usize, moment: usize) -> Vec<Reading> {
        let control = self.record.control(self.processor, moment);
        let reading = |table, rights: Rights, before: &[usize]| {
            let address = entry_address(table, level, self.linear);
            let value = self.record.word(address, moment);
            let kind = kind_of(&self.record.settings, level, value);
            let moments = [before, &[moment]].concat();
            Reading { level, address, value, kind, rights: rights.joined(value), moments }
        };
        if level == 4 { return vec![reading(control.root, Rights::ALL, &[])]; }
        let usable = |entry: &&StructureEntry| entry.level == level + 1 && entry.pcid == control.pcid;
        let entries = self.structures.iter().filter(usable);
        entries.map(|entry| reading(entry.table, entry.rights, &entry.moments)).collect()
    }

    /// Fills the caches with all that may be read now; in version 2 only of entries with A=1 (4.8).
    fn fill(&mut self, moment: usize) {
        let control = self.record.control(self.processor, moment);
        for level in (1..=4).rev() {
            for reading in self.readings(level, moment) {
                if self.record.settings.version == 2 && !has_bit(reading.value, 5) { continue; }
                match reading.kind {
                    Kind::Table { address } => self.keep_structure(reading, control.pcid, address),
                    Kind::Leaf { frame, shift } => self.keep_leaf(reading, control, frame, shift),
                    _ => {}
                }
            }
        }
    }

    /// Of entries that differ by their moments alone the freshest is kept.
    fn keep_structure(&mut self, reading: Reading, pcid: u64, table: u64) {
        let Reading { level, rights, moments, .. } = reading;
        self.structures
            .retain(|entry| (entry.level, entry.pcid, entry.table, entry.rights) != (level, pcid, table, rights));
        self.structures.push(StructureEntry { level, pcid, table, rights, moments });
    }

    /// A translation is global where PGE=1 and its leaf has G=1 when it is made (4.10.2.4).
    fn keep_leaf(&mut self, reading: Reading, control: Control, frame: u64, shift: u32) {
        let global = control.global_pages && has_bit(reading.value, 8);
        let (pcid, dirty) = (control.pcid, has_bit(reading.value, 6));
        let Reading { rights, moments, .. } = reading;
        self.translations.retain(|it| {
            (it.pcid, it.frame, it.shift, it.rights) != (pcid, frame, shift, rights)
                || (it.global, it.dirty) != (global, dirty)
        });
        self.translations.push(Translation { pcid, frame, shift, rights, global, dirty, moments });
    }

    /// Takes out what an event must invalidate on its own processor (4.10.4.1, 4.10.5).
    fn invalidate(&mut self, event: &Event, control: Control) {
        let (linear, current) = (self.linear, control.pcid);
        match event.deed {
            Deed::LoadRoot { operand } if !has_bit(operand, 63) => self.drop_pcid(field(operand, 0, 12)),
            Deed::InvalidatePage { linear: page } => {
                self.structures.retain(|it| it.pcid != current);
                self.drop_page(page, current)
            }
            Deed::InvalidatePcid { kind: 0, pcid, linear: page } => {
                self.drop_structures_for(page, pcid);
                self.translations.retain(|it| it.pcid != pcid || it.global || !is_same_page(page, linear, it.shift))
            }
            Deed::InvalidatePcid { kind: 1, pcid, .. } => self.drop_pcid(pcid),
            Deed::InvalidatePcid { kind, .. } => {
                self.structures.clear();
                self.translations.retain(|it| kind == 3 && it.global)
            }
            Deed::SetGlobalPages { on } if on != control.global_pages => {
                self.structures.clear();
                self.translations.clear()
            }
            Deed::Access { linear: page, outcome: Outcome::Fault(_), .. } => {
                self.drop_structures_for(page, current);
                self.drop_page(page, current)
            }
            _ => {}
        }
    }

    fn drop_pcid(&mut self, pcid: u64) {
        self.structures.retain(|it| it.pcid != pcid);
        self.translations.retain(|it| it.pcid != pcid || it.global);
    }

    fn drop_structures_for(&mut self, page: u64, pcid: u64) {
        let linear = self.linear;
        self.structures.retain(|it| it.pcid != pcid || !is_same_page(page, linear, level_shift(it.level)));
    }

    /// The translations of a page under a PCID, and its global pages.
    fn drop_page(&mut self, page: u64, pcid: u64) {
        let linear = self.linear;
        self.translations.retain(|it| !is_same_page(page, linear, it.shift) || it.pcid != pcid && !it.global);
    }

    /// Goes on to a moment. Between events that matter a fill finds nothing new: it is done just
    /// behind them, and just before them, which gives the freshest moments.
    fn advance(&mut self, moment: usize) {
        let mut has_changed = true;
        while self.next < moment {
            let event = self.record.events[self.next];
            let is_own = event.processor == self.processor;
            let matters = match event.deed {
                Deed::Write { .. } | Deed::Assist { .. } => true,
                Deed::Access { outcome: Outcome::Page(_), .. } => false,
                _ => is_own,
            };
            if matters || has_changed { self.fill(self.next); }
            has_changed = matters;
            if is_own { self.invalidate(&event, self.record.control(self.processor, self.next)); }
            self.next += 1;
        }
        self.fill(moment);
    }

    /// The freshest moments that witness a deed, were it done now.
    fn witness(&self, deed: &Deed) -> Option<Moments> {
        let found: Vec<Moments> = match *deed {
            Deed::Access { access, outcome, .. } => match outcome {
                Outcome::Fault(code) if code & 9 != 1 => self.failed_walks(access, code),
                _ => self.served(access, outcome),
            },
            Deed::Assist { access, word, dirty, .. } => self.updated(access, word, dirty),
            _ => vec![vec![]],
        };
        found.into_iter().max_by_key(|moments| moments.iter().rev().copied().collect::<Vec<_>>())
    }

    /// An answer, or a denial, by a translation that may be used now (4.6.1, 4.10.2.4).
    fn served(&self, access: Access, outcome: Outcome) -> Vec<Moments> {
        let settings = &self.record.settings;
        let pcid = self.record.control(self.processor, self.next).pcid;
        let is_write = access.operation == Operation::Write;
        let serves = |it: &&Translation| {
            let gives = if it.rights.allow(settings, access) {
                // (a write is done only by a translation whose leaf had D=1: profile)
                let is_done = settings.version == 1 || !is_write || it.dirty;
                is_done && outcome == Outcome::Page(it.frame + field(self.linear, 0, it.shift))
            } else { outcome == Outcome::Fault(fault_code(settings, access, 1)) };
            gives && (it.pcid == pcid || it.global)
        };
        self.translations.iter().filter(serves).map(|it| it.moments.clone()).collect()
    }

    /// Entries that a walk may read now, of all levels.
    fn all_readings(&self) -> impl Iterator<Item = Reading> + '_ {
        (1..=4).rev().flat_map(|level| self.readings(level, self.next))
    }

    /// Walks that end now at an absent or a reserved entry, which is never cached (4.7, 4.10.2.3).
    fn failed_walks(&self, access: Access, code: u64) -> Vec<Moments> {
        let (kind, cause) = if has_bit(code, 0) { (Kind::Reserved, 9) } else { (Kind::Absent, 0) };
        if code != fault_code(&self.record.settings, access, cause) { return vec![]; }
        self.all_readings().filter(|it| it.kind == kind).map(|it| it.moments).collect()
    }

    /// Walks that end now at the entry whose flags the processor sets (4.8).
    fn updated(&self, access: Access, word: u64, dirty: bool) -> Vec<Moments> {
        let settings = &self.record.settings;
        let may_be = |it: &Reading| match it.kind {
            Kind::Table { .. } => !dirty,
            Kind::Leaf { .. } => !dirty || it.rights.allow(settings, access),
            _ => false,
        };
        let found = self.all_readings().filter(|it| it.address == word && may_be(it));
        found.map(|it| it.moments).collect()
    }
}

// ---- Judging

/// The processor and the address that moments are asked for, of accesses and assists alone.
fn asked(event: &Event) -> Option<(usize, u64)> {
    match event.deed {
        Deed::Access { linear, .. } | Deed::Assist { linear, .. } => Some((event.processor, linear)),
        _ => None,
    }
}

/// The least event that no moments witness.
fn first_bad(record: &Record) -> Option<usize> {
    let mut pages: HashMap<(usize, u64), Cached> = HashMap::new();
    for (number, event) in record.events.iter().enumerate() {
        let Some((processor, linear)) = asked(event) else { continue };
        let cached = pages.entry((processor, linear >> 12)).or_insert_with(|| Cached::new(record, processor, linear));
        // (addresses of one page differ in their offset alone)
        cached.linear = linear;
        cached.advance(number);
        if cached.witness(&event.deed).is_none() { return Some(number); }
    }
    None
}

/// The latest moment before an event at which the same deed would have been witnessed.
fn last_chance(record: &Record, number: usize) -> Option<(usize, Moments)> {
    let event = record.events[number];
    let (processor, linear) = asked(&event)?;
    let mut cached = Cached::new(record, processor, linear);
    let mut last = None;
    for moment in 0..number {
        cached.advance(moment);
        if let Some(moments) = cached.witness(&event.deed) { last = Some((moment, moments)); }
    }
    last
}

// ---- Text

fn access_text(access: Access, linear: u64) -> String {
    let mode = match (access.user, access.alignment_check) {
        (true, false) => "user",
        (true, true) => "user-ac",
        (false, false) => "super",
        (false, true) => "super-ac",
    };
    let operation = match access.operation {
        Operation::Read => "read",
        Operation::Write => "write",
        Operation::Fetch => "fetch",
    };
    format!("{mode} {operation} {linear:#x}")
}

fn outcome_text(outcome: Outcome) -> String {
    let Outcome::Fault(code) = outcome else {
        let Outcome::Page(page) = outcome else { unreachable!() };
        return format!("{page:#x}");
    };
    let names = ["present", "write", "user", "reserved", "fetch"];
    let set: Vec<&str> = (0..5).filter(|bit| has_bit(code, *bit)).map(|bit| names[bit as usize]).collect();
    let bits = if set.is_empty() { String::new() } else { format!(" ({})", set.join(" ")) };
    format!("fault {code:#x}{bits}")
}

/// The line of an event, as `pcid-audit show` prints one, without its moments.
fn event_line(record: &Record, number: usize) -> String {
    let Event { processor, deed } = record.events[number];
    let text = match deed {
        Deed::Write { address, value } => format!("write [{address:#x}] = {value:#x}"),
        Deed::Access { access, linear, outcome } => {
            format!("{} -> {}", access_text(access, linear), outcome_text(outcome))
        }
        Deed::Assist { access, linear, word, dirty } => {
            let flags = if dirty { "accessed dirty" } else { "accessed" };
            format!("{} assist [{word:#x}] {flags}", access_text(access, linear))
        }
        Deed::LoadRoot { operand } => format!("cr3 {operand:#x}"),
        Deed::InvalidatePage { linear } => format!("invlpg {linear:#x}"),
        Deed::InvalidatePcid { kind, pcid, linear } => { format!("invpcid {kind} {pcid:#x} {linear:#x}") }
        Deed::SetGlobalPages { on } => format!("pge {}", if on { "on" } else { "off" }),
    };
    format!("{number} cpu {processor} {text}")
}

/// The walk that is read at the event, down to the first entry that is no table.
fn print_walk(record: &Record, number: usize, processor: usize, linear: u64) {
    let mut table = record.control(processor, number).root;
    for level in (1..=4).rev() {
        let address = entry_address(table, level, linear);
        let value = record.word(address, number);
        let kind = kind_of(&record.settings, level, value);
        let name = match kind {
            Kind::Absent => "absent",
            Kind::Reserved => "reserved",
            Kind::Table { .. } => "table",
            Kind::Leaf { .. } => "leaf",
        };
        let writer = match record.word_version(address, number).and_then(|it| it.writer) {
            Some(event) => format!("written by event {event}"),
            None => "never written".to_string(),
        };
        println!("now: level {level} [{address:#x}] = {value:#x} {name}, {writer}");
        let Kind::Table { address } = kind else { return };
        table = address;
    }
}

fn print_explanation(record: &Record, number: usize) {
    println!("event: {}", event_line(record, number));
    if let Some((processor, linear)) = asked(&record.events[number]) {
        print_walk(record, number, processor, linear);
    }
    match last_chance(record, number) {
        Some((moment, moments)) => {
            let list: Vec<String> = moments.iter().map(usize::to_string).collect();
            let taker = event_line(record, moment);
            println!("last: moment {moment} by {}; taken by {taker}", list.join(" "));
        }
        None => println!("last: never"),
    }
}

fn certify(record: &Record) -> ExitCode {
    let bad = first_bad(record);
    match bad {
        None => println!("verdict: yes"),
        Some(number) => println!("verdict: no\nevent: {number}\nreason: 14 no moments"),
    }
    println!("events: {}\nsegments: {}", record.events.len(), record.segments);
    match bad {
        None => ExitCode::SUCCESS,
        Some(number) => {
            print_explanation(record, number);
            ExitCode::from(1)
        }
    }
}

fn main() -> ExitCode {
    let words: Vec<String> = std::env::args().skip(1).collect();
    let mut bytes = vec![];
    let read = match words.iter().map(String::as_str).collect::<Vec<_>>()[..] {
        ["certify"] => std::io::stdin().read_to_end(&mut bytes).map(|_| ()),
        ["certify", file] => std::fs::read(file).map(|found| bytes = found),
        _ => {
            eprintln!("usage: reference certify [FILE]");
            return ExitCode::from(64);
        }
    };
    let record = read.map_err(|_| "11 device".to_string()).and_then(|()| Source { bytes: &bytes, at: 0 }.record());
    match record {
        Ok(record) => certify(&record),
        Err(refusal) => {
            eprintln!("pcid-audit: refused {refusal}");
            ExitCode::from(2)
        }
    }
}
