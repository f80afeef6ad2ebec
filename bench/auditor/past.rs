// SPDX-License-Identifier: MIT OR Apache-2.0
//! What held, and what was dropped, at each moment.
use crate::lists::{next_in, Lists, NEVER};
use crate::memory::Memory;
use crate::record::{bits, has_bit, shift_of, Change, Claim, Header, Kind};

/// What an entry of a cache is kept under: its processor, and its PCID unless it is global.
#[derive(Clone, Copy, PartialEq, Eq)]
pub struct Context(u32);

impl Context {
    fn of(processor: u16, pcid: u16) -> Self {
        Context(u32::from(processor) << 13 | u32::from(pcid))
    }

    pub fn global(processor: u16) -> Self {
        Context(u32::from(processor) << 13 | 1 << 12)
    }

    fn key(self) -> u64 {
        u64::from(self.0)
    }

    /// That of the processor's global translations.
    fn globally(self) -> Self {
        Context(self.0 >> 13 << 13 | 1 << 12)
    }

    /// The key of what the context keeps for an address at a level.
    fn key_at(self, level: u8, linear: u64) -> u64 {
        let prefix = bits(linear, 0, 48) >> shift_of(level);
        self.key() << 38 | u64::from(level - 1) << 36 | prefix
    }
}

#[derive(Clone, Copy)]
pub struct Control {
    pub root: u64,
    pub context: Context,
    pub global: bool,
}

impl Control {
    pub fn loaded(header: &Header, processor: u16, cr3: u64, global: bool) -> Self {
        Control {
            root: bits(cr3, 12, header.address_bits),
            context: Context::of(processor, (cr3 & 0xfff) as u16),
            global,
        }
    }
}

pub struct Processor {
    /// The moments from which the control registers hold, and the registers.
    from: Vec<u32>,
    pub controls: Vec<Control>,
    /// The events that drop everything but global translations.
    flushes: Vec<u32>,
}

impl Processor {
    pub fn new(start: Control) -> Self {
        Processor {
            from: vec![0],
            controls: vec![start],
            flushes: Vec::new(),
        }
    }

    fn last(&self) -> usize {
        self.controls.len() - 1
    }

    fn now(&self) -> Control {
        self.controls[self.last()]
    }

    fn load(&mut self, from: u32, control: Control) {
        self.from.push(from);
        self.controls.push(control);
    }

    /// The place of the registers that hold at a moment, where those at `place` hold no sooner.
    /// Those shortly before are looked at first.
    #[inline]
    pub fn place_at(&self, moment: u32, place: usize) -> usize {
        let (mut low, mut high, mut step) = (place, place, 1);
        while self.from[low] > moment {
            high = low;
            low = low.saturating_sub(step);
            step *= 2;
        }
        low + self.from[low..high]
            .partition_point(|&from| from <= moment)
            .saturating_sub(1)
    }
}

#[derive(Clone, Copy, PartialEq, Eq)]
enum Cause {
    /// Drops global translations too.
    Fault,
    /// Drops global translations too, and all structure entries of its PCID.
    Invlpg,
    Invpcid,
}

/// An event that drops what a context keeps for an address.
struct Invalidation {
    event: u32,
    context: Context,
    linear: u64,
    cause: Cause,
}

pub struct Past {
    pub header: Header,
    pub processors: Vec<Processor>,
    pub memory: Memory,
    /// By context: the events that drop all its translations (and all its structure entries).
    flushes: Lists,
    /// By context: the events that drop all its structure entries.
    structure_flushes: Lists,
    /// Until the lists are packed.
    invalidations: Vec<Invalidation>,
    /// The events that drop a translation by its level less 1, and its key.
    translation_drops: [Lists; 3],
    /// The events that drop a structure entry for an address, by its key.
    structure_drops: Lists,
}

impl Past {
    pub fn new(header: Header) -> Self {
        Past {
            header,
            processors: Vec::new(),
            memory: Memory::default(),
            flushes: Lists::default(),
            structure_flushes: Lists::default(),
            invalidations: Vec::new(),
            translation_drops: Default::default(),
            structure_drops: Lists::default(),
        }
    }

    /// Enters a claim, and gives the place of its processor's registers at it. Events come in order,
    /// so that each list grows sorted.
    #[inline]
    pub fn note_claim(&mut self, claim: &Claim) -> u32 {
        match claim.kind {
            Kind::Answer => {}
            Kind::Fault => {
                let context = self.processors[usize::from(claim.processor)].now().context;
                self.invalidate(claim.number, context, claim.linear, Cause::Fault);
            }
            Kind::Assist => self
                .memory
                .mark(claim.number, claim.value, claim.flags.says_dirty()),
        }
        self.processors[usize::from(claim.processor)].last() as u32
    }

    pub fn note_change(&mut self, number: u32, index: u16, change: &Change) {
        let processor = &mut self.processors[usize::from(index)];
        let control = processor.now();
        match *change {
            Change::Write { address, value } => self.memory.write(number, address, value),
            Change::MovCr3 { operand } => {
                let loaded = Control::loaded(&self.header, index, operand, control.global);
                processor.load(number + 1, loaded);
                if !has_bit(operand, 63) {
                    self.flush(number, loaded.context);
                }
            }
            Change::Invlpg { linear } => {
                self.invalidate(number, control.context, linear, Cause::Invlpg);
                self.structure_flushes.note(control.context.key(), number);
            }
            Change::Invpcid {
                kind: 0,
                pcid,
                linear,
            } => {
                self.invalidate(number, Context::of(index, pcid), linear, Cause::Invpcid);
            }
            Change::Invpcid { kind: 1, pcid, .. } => self.flush(number, Context::of(index, pcid)),
            Change::Invpcid { kind: 2, .. } => self.flush_all(number, index),
            Change::Invpcid { .. } => processor.flushes.push(number),
            Change::MovCr4 { global } if global != control.global => {
                processor.load(number + 1, Control { global, ..control });
                self.flush_all(number, index);
            }
            _ => {}
        }
    }

    fn flush(&mut self, number: u32, context: Context) {
        self.flushes.note(context.key(), number);
        self.structure_flushes.note(context.key(), number);
    }

    /// Drops all that a processor keeps, global translations too.
    fn flush_all(&mut self, number: u32, index: u16) {
        self.processors[usize::from(index)].flushes.push(number);
        self.flushes.note(Context::global(index).key(), number);
    }

    fn invalidate(&mut self, event: u32, context: Context, linear: u64, cause: Cause) {
        self.invalidations.push(Invalidation {
            event,
            context,
            linear,
            cause,
        });
    }

    /// Makes what was noted ready to be looked up, for claims that end at these levels.
    pub fn pack(&mut self, levels: &[u8]) {
        for invalidation in std::mem::take(&mut self.invalidations) {
            self.enter_translations(&invalidation, levels);
            if invalidation.cause != Cause::Invlpg {
                for level in 2..=4 {
                    let key = invalidation.context.key_at(level, invalidation.linear);
                    self.structure_drops.note(key, invalidation.event);
                }
            }
        }
        self.memory.pack();
        self.flushes.pack();
        self.structure_flushes.pack();
        self.structure_drops.pack();
        self.translation_drops.iter_mut().for_each(Lists::pack);
    }

    /// Enters which translations are dropped. Of levels that no claim ends at there are none, and
    /// where no entry says so none is global.
    fn enter_translations(&mut self, invalidation: &Invalidation, levels: &[u8]) {
        let &Invalidation {
            event,
            context,
            linear,
            cause,
        } = invalidation;
        for &level in levels.iter().filter(|&&level| level < 4) {
            let drops = &mut self.translation_drops[usize::from(level - 1)];
            drops.note(context.key_at(level, linear), event);
            if self.memory.has_global && cause != Cause::Invpcid {
                drops.note(context.globally().key_at(level, linear), event);
            }
        }
    }

    /// Whether a structure entry is dropped between two moments.
    #[inline]
    pub fn is_structure_dropped(
        &self,
        (processor, context): (u16, Context),
        (level, linear): (u8, u64),
        (from, to): (u32, u32),
    ) -> bool {
        let is_in = |events: &[u32]| next_in(events, from) < to;
        is_in(&self.processors[usize::from(processor)].flushes)
            || is_in(self.structure_flushes.list(context.key()))
            || is_in(self.structure_drops.list(context.key_at(level, linear)))
    }

    /// The first event from a moment on that drops a translation, or `NEVER`.
    #[inline]
    pub fn end_of_translation(
        &self,
        (processor, context): (u16, Context),
        (level, linear): (u8, u64),
        from: u32,
    ) -> u32 {
        let by_all = if context == Context::global(processor) {
            NEVER
        } else {
            next_in(&self.processors[usize::from(processor)].flushes, from)
        };
        let drops = &self.translation_drops[usize::from(level - 1)];
        let at_address = drops.list(context.key_at(level, linear));
        by_all
            .min(next_in(self.flushes.list(context.key()), from))
            .min(next_in(at_address, from))
    }
}
