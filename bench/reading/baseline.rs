// SPDX-License-Identifier: MIT OR Apache-2.0
//! The same decoding in plain Rust: reads a record from standard input in blocks of 64 KiB, checks
//! every field as docs/FORMAT.md says, and keeps the events segment by segment, then lets them go.
use std::io::Read;
use std::time::Instant;

#[derive(Clone, Copy)]
#[allow(dead_code)]
enum Outcome { Page(u64), Fault(u16) }

#[derive(Clone, Copy)]
#[allow(dead_code)]
enum Event {
    Write { p: u16, addr: u64, value: u64 },
    Access { p: u16, flags: u8, la: u64, outcome: Outcome, count: u8, at: [u32; 4] },
    MovCr3 { p: u16, operand: u64 },
    Invlpg { p: u16, la: u64 },
    Invpcid { p: u16, kind: u8, pcid: u16, la: u64 },
    MovCr4Pge { p: u16, on: bool },
}

struct Reader<R> { inner: R, buffer: Vec<u8>, start: usize, end: usize }

impl<R: Read> Reader<R> {
    fn need(&mut self, n: usize) -> Result<(), u8> {
        while self.end - self.start < n {
            self.buffer.copy_within(self.start..self.end, 0);
            self.end -= self.start;
            self.start = 0;
            let got = self.inner.read(&mut self.buffer[self.end..]).map_err(|_| 11u8)?;
            if got == 0 { return Err(8); }
            self.end += got;
        }
        Ok(())
    }
    fn bytes<const N: usize>(&mut self) -> Result<[u8; N], u8> {
        self.need(N)?;
        let mut out = [0; N];
        out.copy_from_slice(&self.buffer[self.start..self.start + N]);
        self.start += N;
        Ok(out)
    }
    fn u8(&mut self) -> Result<u8, u8> { Ok(self.bytes::<1>()?[0]) }
    fn u16(&mut self) -> Result<u16, u8> { Ok(u16::from_le_bytes(self.bytes()?)) }
    fn u32(&mut self) -> Result<u32, u8> { Ok(u32::from_le_bytes(self.bytes()?)) }
    fn u64(&mut self) -> Result<u64, u8> { Ok(u64::from_le_bytes(self.bytes()?)) }
    fn event(&mut self) -> Result<Event, u8> {
        let tag = self.u8()?;
        if !(0x10..=0x15).contains(&tag) { return Err(6); }
        let p = self.u8()? as u16;
        Ok(match tag {
            0x10 => Event::Write { p, addr: self.u64()?, value: self.u64()? },
            0x11 => {
                let flags = self.u8()?;
                let la = self.u64()?;
                let outcome = match self.u8()? { 0 => Outcome::Page(self.u64()?), 1 => Outcome::Fault(self.u16()?), _ => return Err(6) };
                let count = self.u8()?;
                if !(1..=4).contains(&count) { return Err(6); }
                let mut at = [0; 4];
                for moment in at.iter_mut().take(count as usize) { *moment = self.u32()?; }
                Event::Access { p, flags, la, outcome, count, at }
            }
            0x12 => Event::MovCr3 { p, operand: self.u64()? },
            0x13 => Event::Invlpg { p, la: self.u64()? },
            0x14 => Event::Invpcid { p, kind: self.u8()?, pcid: self.u16()?, la: self.u64()? },
            _ => Event::MovCr4Pge { p, on: match self.u8()? { 0 => false, 1 => true, _ => return Err(6) } },
        })
    }
}

fn canonical(la: u64) -> bool { la >> 47 == 0 || la >> 47 == 0x1_ffff }

fn well_formed(m: u8, processors: u8, event: &Event) -> bool {
    match *event {
        Event::Write { p, addr, .. } => p < processors as u16 && addr % 8 == 0 && addr < 1 << m,
        Event::Access { p, flags, la, .. } => p < processors as u16 && canonical(la) && flags % 4 != 3 && flags < 16,
        Event::MovCr3 { p, operand } => p < processors as u16 && (operand & !(1 << 63)) >> m == 0,
        Event::Invlpg { p, la } => p < processors as u16 && canonical(la),
        Event::Invpcid { p, kind, pcid, la } => {
            p < processors as u16 && (kind != 0 || canonical(la)) && kind <= 3 && pcid <= 4095
                && !(kind > 1 && pcid != 0) && !(kind > 0 && la != 0)
        }
        Event::MovCr4Pge { p, .. } => p < processors as u16,
    }
}

fn record<R: Read>(reader: &mut Reader<R>) -> Result<u64, u8> {
    if &reader.bytes::<8>()? != b"PGRECORD" { return Err(1); }
    if reader.u16()? != 1 { return Err(2); }
    let (m, flags, processors) = (reader.u8()?, reader.u8()?, reader.u8()?);
    let size = reader.u32()?;
    if !(36..=52).contains(&m) || flags >= 16 || !(1..=64).contains(&processors) || !(1..=65536).contains(&size) { return Err(3); }
    for _ in 0..processors { if reader.u64()? >> m != 0 || reader.u8()? > 1 { return Err(3); } }
    let (mut total, mut number, mut full) = (0u64, 0u32, true);
    loop {
        match reader.u8()? {
            1 if !full => return Err(5),
            1 => {
                if reader.u32()? != number { return Err(4); }
                let count = reader.u32()?;
                if count == 0 || count > size || total + count as u64 > u32::MAX as u64 { return Err(5); }
                let mut events = Vec::with_capacity(count as usize);
                for _ in 0..count {
                    let event = reader.event()?;
                    if !well_formed(m, processors, &event) { return Err(7); }
                    events.push(event);
                }
                std::hint::black_box(&events);
                (total, number, full) = (total + count as u64, number + 1, count == size);
            }
            2 => {
                if reader.u32()? as u64 != total { return Err(9); }
                return if reader.need(1) == Err(8) { Ok(total) } else { Err(10) };
            }
            _ => return Err(6),
        }
    }
}

fn main() {
    let mut reader = Reader { inner: std::io::stdin().lock(), buffer: vec![0; 65536], start: 0, end: 0 };
    let start = Instant::now();
    let read = record(&mut reader);
    let spent = start.elapsed().as_nanos();
    println!("{} {spent}", read.map_or_else(|e| format!("refused-{e}"), |n| n.to_string()));
}
