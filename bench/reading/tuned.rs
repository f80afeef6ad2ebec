// SPDX-License-Identifier: MIT OR Apache-2.0
//! The decoding of baseline.rs by hand-tuned Rust: the bytes of the longest event are had at hand once
//! an event, and its fields are then taken from the front of a slice.
use std::io::Read;
use std::time::Instant;

/// The most bytes that an event takes.
const LONGEST: usize = 37;

#[derive(Clone, Copy)]
#[allow(dead_code)]
enum Outcome { Page(u64), Fault(u16) }

#[derive(Clone, Copy)]
#[allow(dead_code)]
enum Event {
    Write { p: u16, addr: u64, value: u64 },
    Access { p: u16, flags: u8, la: u64, outcome: Outcome, count: u8, at: [u32; 4] },
    MovCr3 { p: u16, operand: u64 },
    Invlpg { p: u16, la: u64 },
    Invpcid { p: u16, kind: u8, pcid: u16, la: u64 },
    MovCr4Pge { p: u16, on: bool },
}

struct Header { m: u8, processors: u8, size: u32 }

#[inline(always)]
fn bytes<const N: usize>(left: &mut &[u8]) -> Result<[u8; N], u8> {
    let (front, rest) = left.split_first_chunk().ok_or(8u8)?;
    *left = rest;
    Ok(*front)
}
#[inline(always)]
fn u8_of(left: &mut &[u8]) -> Result<u8, u8> { Ok(bytes::<1>(left)?[0]) }
#[inline(always)]
fn u16_of(left: &mut &[u8]) -> Result<u16, u8> { Ok(u16::from_le_bytes(bytes(left)?)) }
#[inline(always)]
fn u32_of(left: &mut &[u8]) -> Result<u32, u8> { Ok(u32::from_le_bytes(bytes(left)?)) }
#[inline(always)]
fn u64_of(left: &mut &[u8]) -> Result<u64, u8> { Ok(u64::from_le_bytes(bytes(left)?)) }

fn canonical(la: u64) -> bool { la >> 47 == 0 || la >> 47 == 0x1_ffff }

#[inline(always)]
fn access_of(p: u16, left: &mut &[u8]) -> Result<Event, u8> {
    let (flags, la) = (u8_of(left)?, u64_of(left)?);
    let outcome = match u8_of(left)? { 0 => Outcome::Page(u64_of(left)?), 1 => Outcome::Fault(u16_of(left)?), _ => return Err(6) };
    let count = u8_of(left)?;
    if !(1..=4).contains(&count) { return Err(6); }
    let mut at = [0; 4];
    if count == 4 {
        for moment in &mut at { *moment = u32_of(left)?; }
    } else {
        for moment in at.iter_mut().take(count as usize) { *moment = u32_of(left)?; }
    }
    if !canonical(la) || flags % 4 == 3 || flags >= 16 { return Err(7); }
    Ok(Event::Access { p, flags, la, outcome, count, at })
}

#[inline(always)]
fn event_of(header: &Header, left: &mut &[u8]) -> Result<Event, u8> {
    let (tag, m) = (u8_of(left)?, header.m);
    if !(0x10..=0x15).contains(&tag) { return Err(6); }
    let p = u8_of(left)? as u16;
    let (event, good) = match tag {
        0x10 => {
            let (addr, value) = (u64_of(left)?, u64_of(left)?);
            (Event::Write { p, addr, value }, addr % 8 == 0 && addr < 1 << m)
        }
        0x11 => (access_of(p, left)?, true),
        0x12 => { let operand = u64_of(left)?; (Event::MovCr3 { p, operand }, (operand & !(1 << 63)) >> m == 0) }
        0x13 => { let la = u64_of(left)?; (Event::Invlpg { p, la }, canonical(la)) }
        0x14 => {
            let (kind, pcid, la) = (u8_of(left)?, u16_of(left)?, u64_of(left)?);
            let good = (kind != 0 || canonical(la)) && kind <= 3 && pcid <= 4095 && !(kind > 1 && pcid != 0) && !(kind > 0 && la != 0);
            (Event::Invpcid { p, kind, pcid, la }, good)
        }
        _ => (Event::MovCr4Pge { p, on: match u8_of(left)? { 0 => false, 1 => true, _ => return Err(6) } }, true),
    };
    if good && p < header.processors as u16 { Ok(event) } else { Err(7) }
}

struct Reader<R> { inner: R, buffer: Vec<u8>, start: usize, end: usize }

impl<R: Read> Reader<R> {
    #[cold]
    #[inline(never)]
    fn refill(&mut self) -> Result<(), u8> {
        self.buffer.copy_within(self.start..self.end, 0);
        self.end -= self.start;
        self.start = 0;
        while self.end < self.buffer.len() {
            let got = self.inner.read(&mut self.buffer[self.end..]).map_err(|_| 11u8)?;
            if got == 0 { break; }
            self.end += got;
        }
        Ok(())
    }
    /// What `part` takes from the front, of at most LONGEST bytes.
    #[inline(always)]
    fn next<T>(&mut self, part: impl Fn(&mut &[u8]) -> Result<T, u8>) -> Result<T, u8> {
        if self.end - self.start < LONGEST { self.refill()?; }
        let mut left = &self.buffer[self.start..self.end];
        let value = part(&mut left)?;
        self.start = self.end - left.len();
        Ok(value)
    }
}

fn header_of(left: &mut &[u8]) -> Result<Header, u8> {
    if &bytes::<8>(left)? != b"PGRECORD" { return Err(1); }
    if u16_of(left)? != 1 { return Err(2); }
    let (m, flags, processors, size) = (u8_of(left)?, u8_of(left)?, u8_of(left)?, u32_of(left)?);
    if !(36..=52).contains(&m) || flags >= 16 || !(1..=64).contains(&processors) || !(1..=65536).contains(&size) { return Err(3); }
    Ok(Header { m, processors, size })
}

fn segment<R: Read>(reader: &mut Reader<R>, header: &Header, number: u32, total: u64) -> Result<Vec<Event>, u8> {
    if reader.next(u32_of)? != number { return Err(4); }
    let count = reader.next(u32_of)?;
    if count == 0 || count > header.size || total + count as u64 > u32::MAX as u64 { return Err(5); }
    let mut events = Vec::with_capacity(count as usize);
    for _ in 0..count { events.push(reader.next(|left| event_of(header, left))?); }
    Ok(events)
}

fn record<R: Read>(reader: &mut Reader<R>) -> Result<u64, u8> {
    let header = reader.next(header_of)?;
    for _ in 0..header.processors {
        if reader.next(u64_of)? >> header.m != 0 || reader.next(u8_of)? > 1 { return Err(3); }
    }
    let (mut total, mut number, mut full) = (0u64, 0u32, true);
    loop {
        match reader.next(u8_of)? {
            1 if !full => return Err(5),
            1 => {
                let events = segment(reader, &header, number, total)?;
                std::hint::black_box(&events);
                (total, number, full) = (total + events.len() as u64, number + 1, events.len() == header.size as usize);
            }
            2 => {
                if reader.next(u32_of)? as u64 != total { return Err(9); }
                return if reader.next(|left| Ok(left.is_empty()))? { Ok(total) } else { Err(10) };
            }
            _ => return Err(6),
        }
    }
}

fn main() {
    let mut reader = Reader { inner: std::io::stdin().lock(), buffer: vec![0; 65536], start: 0, end: 0 };
    let start = Instant::now();
    let read = record(&mut reader);
    let spent = start.elapsed().as_nanos();
    println!("{} {spent} {}", read.map_or_else(|e| format!("refused-{e}"), |n| n.to_string()), size_of::<Event>());
}
