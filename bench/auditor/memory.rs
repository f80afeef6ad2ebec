// SPDX-License-Identifier: MIT OR Apache-2.0
//! The words of memory at each moment.
use crate::lists::{NumberMap, Packed};
use crate::record::has_bit;

/// Neighbouring words that are numbered together.
const BLOCK: u64 = 8;

/// A value of a word, in halves that need no room between them, and the event that gave it.
#[derive(Clone, Copy, Default)]
struct Version {
    event: u32,
    halves: [u32; 2],
}

#[derive(Default)]
pub struct Memory {
    /// The number of the first word of each block, by the block's place in memory.
    blocks: NumberMap<u32>,
    /// The last value of each word, by the word's number.
    latest: Vec<u64>,
    versions: Packed<Version>,
    /// Whether a value has the bit that makes a leaf global.
    pub has_global: bool,
}

impl Memory {
    /// The number of a word, which it is given where it has none.
    #[inline]
    fn number(&mut self, address: u64) -> u32 {
        let next = u32::try_from(self.latest.len()).expect("too many words");
        let first = *self.blocks.entry(address / 8 / BLOCK).or_insert(next);
        if first == next {
            self.latest.resize(self.latest.len() + BLOCK as usize, 0);
        }
        first + (address / 8 % BLOCK) as u32
    }

    pub fn write(&mut self, event: u32, address: u64, value: u64) {
        let word = self.number(address);
        self.change(event, word, value);
    }

    /// Sets the accessed flag, and perhaps the dirty flag, in what stands at an address.
    pub fn mark(&mut self, event: u32, address: u64, is_dirty: bool) {
        let word = self.number(address);
        let flags = if is_dirty { 0x60 } else { 0x20 };
        self.change(event, word, self.latest[word as usize] | flags);
    }

    fn change(&mut self, event: u32, word: u32, value: u64) {
        self.latest[word as usize] = value;
        self.has_global |= has_bit(value, 8);
        let halves = [value as u32, (value >> 32) as u32];
        self.versions.note(word, Version { event, halves });
    }

    /// Makes what was written ready to be looked up.
    pub fn pack(&mut self) {
        self.versions.pack(self.latest.len());
        self.latest = Vec::new();
    }

    #[inline]
    pub fn value_at(&self, address: u64, moment: u32) -> u64 {
        let Some(first) = self.blocks.get(&(address / 8 / BLOCK)) else {
            return 0;
        };
        let versions = self.versions.list(first + (address / 8 % BLOCK) as u32);
        let count = versions.partition_point(|version| version.event < moment);
        let Some(before) = count.checked_sub(1) else {
            return 0;
        };
        let [low, high] = versions[before].halves;
        u64::from(high) << 32 | u64::from(low)
    }
}
