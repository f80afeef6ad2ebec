// SPDX-License-Identifier: MIT OR Apache-2.0
//! The events of a record, read from its bytes.
use crate::past::{Control, Past, Processor};
use std::io::{ErrorKind, Read};

/// Bytes of the input that are held at a time.
const BLOCK: usize = 1 << 18;
/// No event takes more bytes, and no other part that is read at once.
const LONGEST: usize = 64;

/// The tags of events.
const WRITE: u8 = 0x10;
const ACCESS: u8 = 0x11;
const MOV_CR3: u8 = 0x12;
const INVLPG: u8 = 0x13;
const INVPCID: u8 = 0x14;
const MOV_CR4: u8 = 0x15;
const ASSIST: u8 = 0x16;

/// Why bytes spell no record, as it is told.
#[derive(Clone, Copy, PartialEq, Eq)]
pub enum Refusal {
    Plain(&'static str),
    Malformed { event: u32, rule: u8 },
}

const MAGIC: Refusal = Refusal::Plain("1 magic");
const VERSION: Refusal = Refusal::Plain("2 version");
const HEADER_FIELD: Refusal = Refusal::Plain("3 header field");
const SEGMENT_NUMBER: Refusal = Refusal::Plain("4 segment number");
const SEGMENT_COUNT: Refusal = Refusal::Plain("5 segment count");
const TAG: Refusal = Refusal::Plain("6 tag");
const TRUNCATED: Refusal = Refusal::Plain("8 truncated");
const TOTAL: Refusal = Refusal::Plain("9 total");
const TRAILING: Refusal = Refusal::Plain("10 bytes after the end");
pub const DEVICE: Refusal = Refusal::Plain("11 device");

pub fn check<Error>(holds: bool, error: Error) -> Result<(), Error> {
    if holds {
        Ok(())
    } else {
        Err(error)
    }
}

pub fn has_bit(word: u64, bit: u8) -> bool {
    word >> bit & 1 != 0
}

/// The bits of a word from one up to, not with, another, in their place.
pub fn bits(word: u64, low: u8, high: u8) -> u64 {
    word & ((1 << high) - 1) & !((1 << low) - 1)
}

/// The lowest bit of a linear address that picks an entry at a level.
pub fn shift_of(level: u8) -> u8 {
    3 + 9 * level
}

#[derive(Default)]
pub struct Header {
    pub version: u16,
    pub address_bits: u8,
    pub settings: u8,
    pub processors: u16,
    pub segment_size: u32,
}

/// The bits of a header's settings.
pub const WRITE_PROTECT: u8 = 0;
pub const EXECUTE_DISABLE: u8 = 1;
pub const FETCH_PREVENTION: u8 = 2;
pub const ACCESS_PREVENTION: u8 = 3;

impl Header {
    pub fn sets(&self, setting: u8) -> bool {
        self.settings >> setting & 1 != 0
    }
}

#[derive(Clone, Copy)]
pub struct Flags(pub u8);

impl Flags {
    pub fn is_write(self) -> bool {
        self.0 & 3 == 1
    }
    pub fn is_fetch(self) -> bool {
        self.0 & 3 == 2
    }
    pub fn is_user(self) -> bool {
        self.0 & 4 != 0
    }
    /// Whether the access is explicit and EFLAGS.AC is 1.
    pub fn has_ac(self) -> bool {
        self.0 & 8 != 0
    }
    pub fn says_dirty(self) -> bool {
        self.0 & 16 != 0
    }
    /// A number below 16 for what is done and by whom.
    pub fn kind_of_access(self) -> u8 {
        self.0 & 15
    }

    fn may_be_of(self, kind: Kind) -> bool {
        let may_say_dirty = kind == Kind::Assist && self.is_write();
        self.0 & 3 != 3 && self.0 >> 5 == 0 && (may_say_dirty || !self.says_dirty())
    }
}

#[derive(Clone, Copy, PartialEq, Eq)]
pub enum Kind {
    Answer,
    Fault,
    Assist,
}

/// What has to be proved: an access or an assist.
pub struct Claim {
    pub number: u32,
    /// The place of the processor's control registers at the claim.
    pub control: u32,
    pub linear: u64,
    /// The answer, the error code, or for an assist the address of the entry that it changes.
    pub value: u64,
    /// Of the levels that were read; behind them the last again.
    pub moments: [u32; 4],
    pub processor: u16,
    pub flags: Flags,
    pub kind: Kind,
    /// How many levels were read.
    pub count: u8,
}

impl Claim {
    #[inline]
    pub fn last_moment(&self) -> u32 {
        self.moments[3]
    }

    /// That of the level above the last, or where there is none the last.
    #[inline]
    pub fn moment_of_tables(&self) -> u32 {
        self.moments[usize::from(self.count.max(2) - 2)]
    }

    /// Whether the moments do not decrease, nor pass the claim itself.
    #[inline]
    pub fn is_in_order(&self) -> bool {
        let [first, second, third, last] = self.moments;
        first <= second && second <= third && third <= last && last <= self.number
    }
}

/// What is no claim.
pub enum Change {
    Write { address: u64, value: u64 },
    MovCr3 { operand: u64 },
    Invlpg { linear: u64 },
    Invpcid { kind: u8, pcid: u16, linear: u64 },
    MovCr4 { global: bool },
}

pub type Taken<Part> = Result<Part, Refusal>;

/// Takes fields from the front of bytes, which 0s follow where the input ends sooner.
struct Fields<'window> {
    window: &'window [u8; LONGEST],
    /// How many bytes were taken.
    taken: usize,
}

impl Fields<'_> {
    #[inline(always)]
    fn take<const N: usize>(&mut self) -> [u8; N] {
        let field = self.window[self.taken..].first_chunk();
        self.taken += N;
        *field.expect("no part is longer than the window")
    }

    #[inline(always)]
    fn u8(&mut self) -> u8 {
        self.take::<1>()[0]
    }

    #[inline(always)]
    fn u16(&mut self) -> u16 {
        u16::from_le_bytes(self.take())
    }

    #[inline(always)]
    fn u32(&mut self) -> u32 {
        u32::from_le_bytes(self.take())
    }

    #[inline(always)]
    fn u64(&mut self) -> u64 {
        u64::from_le_bytes(self.take())
    }

    #[inline(always)]
    fn bit(&mut self, refusal: Refusal) -> Taken<bool> {
        let byte = self.u8();
        check(byte < 2, refusal)?;
        Ok(byte == 1)
    }

    /// The number of a processor, or how many there are.
    #[inline(always)]
    fn processor(&mut self, version: u16) -> u16 {
        if version == 1 {
            u16::from(self.u8())
        } else {
            self.u16()
        }
    }

    /// So many moments, and the last of them again up to four.
    #[inline(always)]
    fn moments(&mut self, count: u8) -> [u32; 4] {
        let mut moments = [0; 4];
        for (moment, bytes) in moments
            .iter_mut()
            .zip(self.window[self.taken..].chunks_exact(4))
        {
            *moment = u32::from_le_bytes(bytes.try_into().expect("a chunk is of four bytes"));
        }
        let count = usize::from(count);
        if count < 4 {
            let last = moments[count - 1];
            moments[count..].fill(last);
        }
        self.taken += 4 * count;
        moments
    }
}

fn take_header(fields: &mut Fields) -> Taken<Header> {
    check(&fields.take::<8>() == b"PGRECORD", MAGIC)?;
    let version = fields.u16();
    check(version == 1 || version == 2, VERSION)?;
    let address_bits = fields.u8();
    check((36..=52).contains(&address_bits), HEADER_FIELD)?;
    let settings = fields.u8();
    check(settings < 16, HEADER_FIELD)?;
    let processors = fields.processor(version);
    let most = if version == 1 { 64 } else { 1024 };
    check((1..=most).contains(&processors), HEADER_FIELD)?;
    let segment_size = fields.u32();
    check((1..=65536).contains(&segment_size), HEADER_FIELD)?;
    Ok(Header {
        version,
        address_bits,
        settings,
        processors,
        segment_size,
    })
}

/// The control registers of a processor at the start.
fn take_start(fields: &mut Fields, header: &Header, processor: u16) -> Taken<Control> {
    let cr3 = fields.u64();
    check(cr3 >> header.address_bits == 0, HEADER_FIELD)?;
    let global = fields.bit(HEADER_FIELD)?;
    Ok(Control::loaded(header, processor, cr3, global))
}

#[inline(always)]
fn take_claim(fields: &mut Fields, is_assist: bool, number: u32, processor: u16) -> Taken<Claim> {
    let (flags, linear) = (Flags(fields.u8()), fields.u64());
    let (kind, value) = if is_assist {
        (Kind::Assist, fields.u64())
    } else if fields.bit(TAG)? {
        (Kind::Fault, u64::from(fields.u16()))
    } else {
        (Kind::Answer, fields.u64())
    };
    let count = fields.u8();
    check((1..=4).contains(&count), TAG)?;
    Ok(Claim {
        number,
        control: 0,
        linear,
        value,
        moments: fields.moments(count),
        processor,
        flags,
        kind,
        count,
    })
}

#[inline(always)]
fn take_change(fields: &mut Fields, tag: u8) -> Taken<Change> {
    Ok(match tag {
        WRITE => Change::Write {
            address: fields.u64(),
            value: fields.u64(),
        },
        MOV_CR3 => Change::MovCr3 {
            operand: fields.u64(),
        },
        INVLPG => Change::Invlpg {
            linear: fields.u64(),
        },
        INVPCID => Change::Invpcid {
            kind: fields.u8(),
            pcid: fields.u16(),
            linear: fields.u64(),
        },
        _ => Change::MovCr4 {
            global: fields.bit(TAG)?,
        },
    })
}

fn is_word(header: &Header, address: u64) -> bool {
    address % 8 == 0 && address >> header.address_bits == 0
}

fn is_canonical(linear: u64) -> bool {
    linear >> 47 == 0 || linear >> 47 == 0x1_ffff
}

/// The least rule that a claim breaks, or 0.
#[inline(always)]
fn rule_of_claim(header: &Header, claim: &Claim) -> u8 {
    if claim.processor >= header.processors {
        1
    } else if claim.kind == Kind::Assist && !is_word(header, claim.value) {
        2
    } else if !is_canonical(claim.linear) {
        3
    } else if !claim.flags.may_be_of(claim.kind) {
        6
    } else {
        0
    }
}

/// The least rule that a change by a processor breaks, or 0.
#[inline(always)]
fn rule_of_change(header: &Header, processor: u16, change: &Change) -> u8 {
    match *change {
        _ if processor >= header.processors => 1,
        Change::Write { address, .. } if !is_word(header, address) => 2,
        Change::Invlpg { linear } if !is_canonical(linear) => 3,
        Change::Invpcid {
            kind: 0, linear, ..
        } if !is_canonical(linear) => 3,
        Change::MovCr3 { operand } if bits(operand, header.address_bits, 63) != 0 => 4,
        Change::Invpcid { kind, pcid, .. } if kind > 3 || pcid > 4095 => 5,
        Change::Invpcid { kind, pcid, .. } if kind > 1 && pcid != 0 => 5,
        Change::Invpcid { kind, linear, .. } if kind > 0 && linear != 0 => 5,
        _ => 0,
    }
}

/// Hands out the parts of a record from blocks of its bytes.
struct Source<Input> {
    input: Input,
    /// The bytes that are left are those from `start` to `end`; behind them `LONGEST` more.
    block: Vec<u8>,
    start: usize,
    end: usize,
    /// What is refused where the bytes end, once they have.
    ended: Option<Refusal>,
}

impl<Input: Read> Source<Input> {
    fn new(input: Input) -> Self {
        Source {
            input,
            block: vec![0; BLOCK + LONGEST],
            start: 0,
            end: 0,
            ended: None,
        }
    }

    /// Has `LONGEST` bytes left, or all that there are, and 0s behind them.
    #[cold]
    fn fill(&mut self) {
        self.block.copy_within(self.start..self.end, 0);
        self.end -= self.start;
        self.start = 0;
        while self.end < LONGEST && self.ended.is_none() {
            match self.input.read(&mut self.block[self.end..BLOCK]) {
                Ok(0) => self.ended = Some(TRUNCATED),
                Ok(count) => self.end += count,
                Err(error) if error.kind() == ErrorKind::Interrupted => {}
                Err(_) => self.ended = Some(DEVICE),
            }
        }
        self.block[self.end..][..LONGEST].fill(0);
    }

    /// What the function takes from the front of the bytes. Where it takes more than are left, even
    /// if it refuses them, they end within a field.
    #[inline(always)]
    fn next<Part>(&mut self, take: impl FnOnce(&mut Fields) -> Taken<Part>) -> Taken<Part> {
        if self.end - self.start < LONGEST {
            self.fill();
        }
        let window = self.block[self.start..].first_chunk();
        let mut fields = Fields {
            window: window.expect("the block is longer by a window"),
            taken: 0,
        };
        let part = take(&mut fields);
        self.start += fields.taken;
        if self.start > self.end {
            self.start = self.end;
            return Err(self.ended.unwrap_or(TRUNCATED));
        }
        part
    }

    fn u8(&mut self) -> Taken<u8> {
        self.next(|fields| Ok(fields.u8()))
    }

    fn u32(&mut self) -> Taken<u32> {
        self.next(|fields| Ok(fields.u32()))
    }
}

/// What a record says: what changed or was dropped, and what has to be proved.
pub struct Record {
    pub past: Past,
    pub events: u32,
    pub claims: Vec<Claim>,
    /// Whether claims read one, two, three or four levels.
    levels_read: [bool; 4],
}

impl Record {
    /// The levels that claims end at.
    fn levels(&self) -> Vec<u8> {
        let ends_at = |&level: &u8| self.levels_read[usize::from(4 - level)];
        (1..=4).filter(ends_at).collect()
    }

    /// Takes an event of a record of this version, and enters it.
    #[inline(always)]
    fn take_event<const VERSION: u16>(&mut self, fields: &mut Fields, number: u32) -> Taken<()> {
        let tag = fields.u8();
        let last = if VERSION == 1 { MOV_CR4 } else { ASSIST };
        check((WRITE..=last).contains(&tag), TAG)?;
        let processor = fields.processor(VERSION);
        let header = &self.past.header;
        let malformed = |rule| Refusal::Malformed {
            event: number,
            rule,
        };
        if tag == ACCESS || tag == ASSIST {
            let mut claim = take_claim(fields, tag == ASSIST, number, processor)?;
            let rule = rule_of_claim(header, &claim);
            check(rule == 0, malformed(rule))?;
            claim.control = self.past.note_claim(&claim);
            self.levels_read[usize::from(claim.count - 1)] = true;
            self.claims.push(claim);
        } else {
            let change = take_change(fields, tag)?;
            let rule = rule_of_change(header, processor, &change);
            check(rule == 0, malformed(rule))?;
            self.past.note_change(number, processor, &change);
        }
        Ok(())
    }

    /// Reads a segment after its tag, and says whether it is full.
    fn read_segment<const VERSION: u16>(
        &mut self,
        source: &mut Source<impl Read>,
        number: u32,
    ) -> Taken<bool> {
        check(source.u32()? == number, SEGMENT_NUMBER)?;
        let (count, size) = (source.u32()?, self.past.header.segment_size);
        check((1..=size).contains(&count), SEGMENT_COUNT)?;
        let end = self.events.checked_add(count).ok_or(SEGMENT_COUNT)?;
        for number in self.events..end {
            source.next(|fields| self.take_event::<VERSION>(fields, number))?;
        }
        self.events = end;
        Ok(count == size)
    }

    /// Reads all after the header.
    fn read_segments<const VERSION: u16>(&mut self, source: &mut Source<impl Read>) -> Taken<()> {
        let (mut segments, mut is_full) = (0, true);
        loop {
            match source.u8()? {
                1 if is_full => is_full = self.read_segment::<VERSION>(source, segments)?,
                1 => return Err(SEGMENT_COUNT),
                2 => break,
                _ => return Err(TAG),
            }
            segments += 1;
        }
        check(source.u32()? == self.events, TOTAL)?;
        match source.u8() {
            Err(TRUNCATED) => Ok(()),
            other => Err(other.err().unwrap_or(TRAILING)),
        }
    }
}

pub fn read_record(input: impl Read) -> Taken<Record> {
    let mut source = Source::new(input);
    let mut record = Record {
        past: Past::new(source.next(take_header)?),
        events: 0,
        claims: Vec::new(),
        levels_read: [false; 4],
    };
    for number in 0..record.past.header.processors {
        let start = source.next(|fields| take_start(fields, &record.past.header, number))?;
        record.past.processors.push(Processor::new(start));
    }
    if record.past.header.version == 1 {
        record.read_segments::<1>(&mut source)?;
    } else {
        record.read_segments::<2>(&mut source)?;
    }
    let levels = record.levels();
    record.past.pack(&levels);
    Ok(record)
}
