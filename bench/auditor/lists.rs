// SPDX-License-Identifier: MIT OR Apache-2.0
//! Lists under keys: noted item by item, then packed side by side.
use std::collections::HashMap;
use std::hash::{BuildHasherDefault, Hasher};

/// The first event of a sorted list from a moment on, or `NEVER`.
pub fn next_in(events: &[u32], from: u32) -> u32 {
    match events.last() {
        Some(&last) if last >= from => events[events.partition_point(|&event| event < from)],
        _ => NEVER,
    }
}

/// No event has this number.
pub const NEVER: u32 = u32::MAX;

/// Hashes one number by a wide multiplication, whose halves are folded together.
#[derive(Default)]
pub struct NumberHasher(u64);

impl Hasher for NumberHasher {
    fn finish(&self) -> u64 {
        self.0
    }
    fn write(&mut self, _bytes: &[u8]) {
        unreachable!("keys are numbers")
    }

    fn write_u64(&mut self, number: u64) {
        self.0 = spread(number);
    }
}

/// Spreads the bits of a number over the whole of another.
#[inline]
pub fn spread(number: u64) -> u64 {
    let product = u128::from(number) * 0x9e37_79b9_7f4a_7c15;
    (product >> 64) as u64 ^ product as u64
}

pub type NumberMap<Value> = HashMap<u64, Value, BuildHasherDefault<NumberHasher>>;

/// Lists by number. The items of each keep the order in which they were noted.
#[derive(Default)]
pub struct Packed<Item> {
    /// Before packing: each item with the number of its list.
    noted: Vec<(u32, Item)>,
    /// After packing: the items, list by list, and where each list begins.
    items: Vec<Item>,
    starts: Vec<u32>,
}

impl<Item: Copy + Default> Packed<Item> {
    #[inline]
    pub fn note(&mut self, number: u32, item: Item) {
        self.noted.push((number, item));
    }

    /// Puts each of so many lists in one piece. After this nothing is noted.
    pub fn pack(&mut self, lists: usize) {
        assert!(u32::try_from(self.noted.len()).is_ok(), "too many items");
        // The place behind each list, and then, as it is filled from its end, where it begins.
        let mut starts = vec![0; lists + 1];
        for &(number, _) in &self.noted {
            starts[number as usize] += 1;
        }
        let mut end = 0;
        for start in &mut starts {
            end += *start;
            *start = end;
        }
        self.items = vec![Item::default(); self.noted.len()];
        for (number, item) in std::mem::take(&mut self.noted).into_iter().rev() {
            let start = &mut starts[number as usize];
            *start -= 1;
            self.items[*start as usize] = item;
        }
        self.starts = starts;
    }

    /// A list, once they are packed.
    #[inline]
    pub fn list(&self, number: u32) -> &[Item] {
        let number = number as usize;
        &self.items[self.starts[number] as usize..self.starts[number + 1] as usize]
    }
}

/// Lists of events by key. Keys are numbered as they come.
#[derive(Default)]
pub struct Lists {
    numbers: NumberMap<u32>,
    packed: Packed<u32>,
}

impl Lists {
    #[inline]
    pub fn note(&mut self, key: u64, event: u32) {
        let next = self.numbers.len() as u32;
        self.packed
            .note(*self.numbers.entry(key).or_insert(next), event);
    }

    pub fn pack(&mut self) {
        self.packed.pack(self.numbers.len());
    }

    /// The key's list, once the lists are packed.
    #[inline]
    pub fn list(&self, key: u64) -> &[u32] {
        self.numbers
            .get(&key)
            .map_or(&[], |&number| self.packed.list(number))
    }
}
