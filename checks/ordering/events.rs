// SPDX-License-Identifier: MIT OR Apache-2.0
//! Chance, the events of a record, and its bytes.

pub struct Rng(pub u64);
impl Rng {
    pub fn next(&mut self) -> u64 {
        self.0 = self.0.wrapping_add(0x9e37_79b9_7f4a_7c15);
        let mut x = self.0;
        x = (x ^ x >> 30).wrapping_mul(0xbf58_476d_1ce4_e5b9);
        x = (x ^ x >> 27).wrapping_mul(0x94d0_49bb_1331_11eb);
        x ^ x >> 31
    }

    pub fn below(&mut self, count: u64) -> u64 { self.next() % count }
    pub fn percent(&mut self, chance: u64) -> bool { self.below(100) < chance }
    pub fn pick<T: Copy>(&mut self, items: &[T]) -> T { items[self.below(items.len() as u64) as usize] }
    pub fn part(&mut self) -> f64 { (self.next() >> 11) as f64 / (1u64 << 53) as f64 }
}

#[derive(Clone, Copy, PartialEq, Debug)]
pub enum Outcome { Page(u64), Fault(u64) }
#[derive(Clone, Copy, PartialEq, Debug)]
pub enum Deed {
    Write { address: u64, value: u64 },
    Access { flags: u64, linear: u64, outcome: Outcome },
    Assist { flags: u64, linear: u64, word: u64 },
    LoadRoot { operand: u64 },
    InvalidatePage { linear: u64 },
    InvalidatePcid { kind: u64, pcid: u64, linear: u64 },
    SetGlobalPages { on: bool },
}
#[derive(Clone, Copy, PartialEq, Debug)]
pub struct Event { pub processor: usize, pub deed: Deed }

#[derive(Clone)]
pub struct Settings { pub version: u64, pub bits: u32, pub flags: u64, pub processors: Vec<(u64, bool)> }
impl Settings {
    pub fn is_spanned(&self) -> bool { self.version > 2 }
    pub fn has_assists(&self) -> bool { self.version % 2 == 0 }
    pub fn write_protect(&self) -> bool { has(self.flags, 0) }
    pub fn execute_disable(&self) -> bool { has(self.flags, 1) }
    pub fn fetch_prevention(&self) -> bool { has(self.flags, 2) }
    pub fn access_prevention(&self) -> bool { has(self.flags, 3) }
}

pub fn has(word: u64, bit: u32) -> bool { word >> bit & 1 == 1 }

// ---- Bytes (docs/FORMAT.md)

pub const SEGMENT: usize = 1000;
pub fn put(out: &mut Vec<u8>, size: usize, number: u64) { out.extend(&number.to_le_bytes()[..size]) }

pub fn encode_event(out: &mut Vec<u8>, settings: &Settings, event: &Event, back: u64) {
    let (tag, names) = match event.deed {
        Deed::Write { .. } => (0x10, false),
        Deed::Access { .. } => (0x11, true),
        Deed::LoadRoot { .. } => (0x12, false),
        Deed::InvalidatePage { .. } => (0x13, false),
        Deed::InvalidatePcid { .. } => (0x14, false),
        Deed::SetGlobalPages { .. } => (0x15, false),
        Deed::Assist { .. } => (0x16, true),
    };
    put(out, 1, tag);
    put(out, if settings.has_assists() { 2 } else { 1 }, event.processor as u64);
    if settings.is_spanned() { put(out, 4, back) }
    match event.deed {
        Deed::Write { address, value } => { put(out, 8, address); put(out, 8, value) }
        Deed::Access { flags, linear, outcome } => {
            put(out, 1, flags);
            put(out, 8, linear);
            match outcome {
                Outcome::Page(address) => { put(out, 1, 0); put(out, 8, address) }
                Outcome::Fault(code) => { put(out, 1, 1); put(out, 2, code) }
            }
        }
        Deed::LoadRoot { operand } => put(out, 8, operand),
        Deed::InvalidatePage { linear } => put(out, 8, linear),
        Deed::InvalidatePcid { kind, pcid, linear } => { put(out, 1, kind); put(out, 2, pcid); put(out, 8, linear) }
        Deed::SetGlobalPages { on } => put(out, 1, on as u64),
        Deed::Assist { flags, linear, word } => { put(out, 1, flags); put(out, 8, linear); put(out, 8, word) }
    }
    if names && !settings.is_spanned() { put(out, 1, 1); put(out, 4, 0) }
}

pub fn encode(settings: &Settings, events: &[Event], backs: &[u64]) -> Vec<u8> {
    let mut out = b"PGRECORD".to_vec();
    put(&mut out, 2, settings.version);
    put(&mut out, 1, settings.bits as u64);
    put(&mut out, 1, settings.flags);
    put(&mut out, if settings.has_assists() { 2 } else { 1 }, settings.processors.len() as u64);
    put(&mut out, 4, SEGMENT as u64);
    for (operand, on) in &settings.processors { put(&mut out, 8, *operand); put(&mut out, 1, *on as u64) }
    for (number, first) in (0..events.len()).step_by(SEGMENT).enumerate() {
        let last = (first + SEGMENT).min(events.len());
        put(&mut out, 1, 1);
        put(&mut out, 4, number as u64);
        put(&mut out, 4, (last - first) as u64);
        for i in first..last { encode_event(&mut out, settings, &events[i], backs[i]) }
    }
    put(&mut out, 1, 2);
    put(&mut out, 4, events.len() as u64);
    out
}

pub struct Source<'a> { pub bytes: &'a [u8], pub at: usize }
impl Source<'_> {
    pub fn number(&mut self, size: usize) -> u64 {
        let field = &self.bytes[self.at..self.at + size];
        self.at += size;
        field.iter().rev().fold(0, |number, byte| number << 8 | u64::from(*byte))
    }

    pub fn event(&mut self, settings: &Settings) -> (Event, u64) {
        let tag = self.number(1);
        let processor = self.number(if settings.has_assists() { 2 } else { 1 }) as usize;
        let back = self.number(4);
        let deed = match tag {
            0x10 => Deed::Write { address: self.number(8), value: self.number(8) },
            0x11 => {
                let (flags, linear) = (self.number(1), self.number(8));
                let is_fault = self.number(1) == 1;
                let outcome = if is_fault { Outcome::Fault(self.number(2)) } else { Outcome::Page(self.number(8)) };
                Deed::Access { flags, linear, outcome }
            }
            0x12 => Deed::LoadRoot { operand: self.number(8) },
            0x13 => Deed::InvalidatePage { linear: self.number(8) },
            0x14 => Deed::InvalidatePcid { kind: self.number(1), pcid: self.number(2), linear: self.number(8) },
            0x15 => Deed::SetGlobalPages { on: self.number(1) == 1 },
            _ => Deed::Assist { flags: self.number(1), linear: self.number(8), word: self.number(8) },
        };
        (Event { processor, deed }, back)
    }

    pub fn record(&mut self) -> (Settings, Vec<Event>, Vec<u64>) {
        self.number(8);
        let version = self.number(2);
        let (bits, flags) = (self.number(1) as u32, self.number(1));
        let mut settings = Settings { version, bits, flags, processors: vec![] };
        let count = self.number(if settings.has_assists() { 2 } else { 1 });
        self.number(4);
        for _ in 0..count { settings.processors.push((self.number(8), self.number(1) == 1)) }
        let (mut events, mut backs) = (vec![], vec![]);
        while self.number(1) == 1 {
            self.number(4);
            for _ in 0..self.number(4) {
                let (event, back) = self.event(&settings);
                events.push(event);
                backs.push(back);
            }
        }
        (settings, events, backs)
    }
}
