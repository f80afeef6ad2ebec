// SPDX-License-Identifier: MIT OR Apache-2.0
//! Walks by moments, and a memo of them.
use crate::judge::Reason;
use crate::lists::spread;
use crate::past::{Context, Past};
use crate::record::{
    bits, has_bit, shift_of, Claim, Flags, Header, ACCESS_PREVENTION, EXECUTE_DISABLE,
    FETCH_PREVENTION, WRITE_PROTECT,
};

/// What an entry is.
#[derive(Clone, Copy, PartialEq, Eq)]
pub enum Shape {
    Absent,
    Reserved,
    Table,
    Leaf,
}

/// The rights of a walk, over all its entries so far: bit 0 to write, bit 1 for the user, bit 2 to
/// fetch.
#[derive(Clone, Copy)]
struct Rights(u8);

impl Rights {
    const ALL: Rights = Rights(7);

    fn joined(self, word: u64) -> Self {
        let fetch = !word >> 63 << 2;
        Rights(self.0 & (word >> 1 & 3 | fetch) as u8)
    }

    fn allow(self, header: &Header, flags: Flags) -> bool {
        let [write, user, fetch] = [0, 1, 2].map(|bit| self.0 >> bit & 1 != 0);
        let is_reachable = match (flags.is_user(), flags.is_fetch()) {
            (true, _) => user,
            (false, true) => !(user && header.sets(FETCH_PREVENTION)),
            (false, false) => !(user && header.sets(ACCESS_PREVENTION)) || flags.has_ac(),
        };
        let is_writable = write || !(flags.is_user() || header.sets(WRITE_PROTECT));
        is_reachable && (!flags.is_write() || is_writable) && (!flags.is_fetch() || fetch)
    }
}

/// What a header's settings say of entries and rights, in tables.
struct Rules {
    address_bits: u8,
    /// The reserved bits of a present entry, by its level less 1 and its bit 7.
    reserved: [[u64; 2]; 4],
    /// By rights: a bit for each kind of access, set where they allow it.
    allowed: [u16; 8],
}

impl Rules {
    fn of(header: &Header) -> Self {
        let mut plain = bits(u64::MAX, header.address_bits, 52);
        if !header.sets(EXECUTE_DISABLE) {
            plain |= 1 << 63;
        }
        let reserved = [1, 2, 3, 4].map(|level| match level {
            1 => [plain, plain],
            4 => [plain, plain | 1 << 7],
            _ => [plain, plain | bits(u64::MAX, 13, shift_of(level))],
        });
        let mut allowed = [0; 8];
        for (rights, kinds) in (0..).zip(&mut allowed) {
            for flags in 0..16 {
                *kinds |= u16::from(Rights(rights).allow(header, Flags(flags))) << flags;
            }
        }
        Rules {
            address_bits: header.address_bits,
            reserved,
            allowed,
        }
    }

    #[inline]
    fn shape_of(&self, level: u8, word: u64) -> Shape {
        let is_large = has_bit(word, 7);
        if !has_bit(word, 0) {
            Shape::Absent
        } else if word & self.reserved[usize::from(level - 1)][usize::from(is_large)] != 0 {
            Shape::Reserved
        } else if level == 1 || is_large {
            Shape::Leaf
        } else {
            Shape::Table
        }
    }
}

/// What a walk is known by: its processor, how many levels it reads, the bits of its linear address
/// that these use, and their moments.
#[derive(Clone, Copy, PartialEq, Eq)]
struct Key {
    path: u64,
    moments: [u32; 4],
}

impl Key {
    /// No walk has it.
    const NONE: Key = Key {
        path: u64::MAX,
        moments: [0; 4],
    };

    /// Of the last entry that a claim reads.
    #[inline]
    fn of_last(claim: &Claim) -> Self {
        Key {
            path: path(claim, claim.count, 12),
            moments: claim.moments,
        }
    }

    /// Of the tables above it.
    #[inline]
    fn of_tables(claim: &Claim) -> Self {
        let lowest = usize::from(claim.count - 2);
        Key {
            path: path(claim, claim.count - 1, shift_of(6 - claim.count)),
            moments: [0, 1, 2, 3].map(|level: usize| claim.moments[level.min(lowest)]),
        }
    }

    /// Its place among so many slots, a power of two.
    #[inline]
    fn slot(&self, slots: usize) -> usize {
        spread(self.path ^ u64::from(self.moments[3]) << 20) as usize & (slots - 1)
    }
}

#[inline]
fn path(claim: &Claim, count: u8, shift: u8) -> u64 {
    let prefix = bits(claim.linear, 0, 48) >> shift;
    u64::from(claim.processor) << 38 | u64::from(count - 1) << 36 | prefix
}

/// The tables of a walk, and what they come to.
#[derive(Clone, Copy)]
#[repr(align(64))]
struct Tables {
    key: Key,
    /// The last of them.
    table: u64,
    context: Context,
    rights: Rights,
    are_accessed: bool,
    /// The least reason why they prove nothing.
    failing: Option<Reason>,
}

/// The last entry that a claim's moments read, and what is known of the walk down to it.
#[derive(Clone, Copy)]
#[repr(align(64))]
pub struct Walk {
    key: Key,
    /// Where the entry lies.
    pub address: u64,
    /// Of a leaf: the answer, but for its 12 lowest bits, which are those of the linear address.
    pub page: u64,
    /// Of a leaf: the first event that drops the translation, or `NEVER`.
    pub end: u32,
    pub context: Context,
    /// A bit for each kind of access, set where the rights allow it.
    allowed: u16,
    pub shape: Shape,
    pub is_global: bool,
    pub is_accessed: bool,
    pub is_dirty: bool,
    /// Whether the tables above have their accessed flags.
    pub are_tables_accessed: bool,
    /// The least reason why the walk proves nothing, whatever it is for.
    pub failing: Option<Reason>,
}

impl Walk {
    #[inline]
    pub fn allows(&self, flags: Flags) -> bool {
        self.allowed >> flags.kind_of_access() & 1 != 0
    }
}

/// Walks that were taken recently.
pub struct Walker<'past> {
    past: &'past Past,
    rules: Rules,
    walks: Vec<Walk>,
    tables: Vec<Tables>,
}

impl<'past> Walker<'past> {
    /// For each processor, and at most in all.
    const WALKS: usize = 1 << 12;
    const MOST_WALKS: usize = 1 << 16;
    const TABLES: usize = 1 << 12;

    /// A walker for about so many claims.
    pub fn new(past: &'past Past, claims: usize) -> Self {
        let context = Context::global(0);
        let slots = (claims / 8).next_power_of_two();
        let walks = (Self::WALKS * past.processors.len()).next_power_of_two();
        let no_tables = Tables {
            key: Key::NONE,
            table: 0,
            context,
            rights: Rights::ALL,
            are_accessed: true,
            failing: None,
        };
        let no_walk = Walk {
            key: Key::NONE,
            address: 0,
            page: 0,
            end: 0,
            context,
            allowed: 0,
            shape: Shape::Absent,
            is_global: false,
            is_accessed: false,
            is_dirty: false,
            are_tables_accessed: true,
            failing: None,
        };
        Walker {
            past,
            rules: Rules::of(&past.header),
            walks: vec![no_walk; slots.min(walks).min(Self::MOST_WALKS)],
            tables: vec![no_tables; slots.min(Self::TABLES)],
        }
    }

    /// The walk of a claim, whose moments do not decrease, nor pass its number.
    #[inline]
    pub fn walk(&mut self, claim: &Claim) -> &Walk {
        let key = Key::of_last(claim);
        let slot = key.slot(self.walks.len());
        if self.walks[slot].key != key {
            self.walks[slot] = self.walk_anew(key, claim);
        }
        &self.walks[slot]
    }

    fn walk_anew(&mut self, key: Key, claim: &Claim) -> Walk {
        let processor = &self.past.processors[usize::from(claim.processor)];
        let moment = claim.last_moment();
        let place = processor.place_at(moment, claim.control as usize);
        let control = processor.controls[place];
        let above = self.tables_above(claim, place);
        let level = 5 - claim.count;
        let shift = shift_of(level);
        let address = above.table + 8 * (claim.linear >> shift & 511);
        let word = self.past.memory.value_at(address, moment);
        let shape = self.rules.shape_of(level, word);
        let frame = bits(word, shift, self.rules.address_bits);
        let is_global = shape == Shape::Leaf && has_bit(word, 8) && control.global;
        let failing = self.failing(claim, &above, control.context);
        let mut end = 0;
        if shape == Shape::Leaf && failing.is_none() {
            let context = if is_global {
                Context::global(claim.processor)
            } else {
                above.context
            };
            let owner = (claim.processor, context);
            end = self
                .past
                .end_of_translation(owner, (level, claim.linear), moment);
        }
        Walk {
            key,
            address,
            page: frame | bits(claim.linear, 12, shift),
            end,
            context: above.context,
            allowed: self.rules.allowed[usize::from(above.rights.joined(word).0)],
            shape,
            is_global,
            is_accessed: has_bit(word, 5),
            is_dirty: has_bit(word, 6),
            are_tables_accessed: above.are_accessed,
            failing,
        }
    }

    /// The least reason that fails for the tables of a claim, and for the step to its last entry.
    fn failing(&self, claim: &Claim, above: &Tables, context: Context) -> Option<Reason> {
        if context != above.context && above.failing != Some(Reason::Entry) {
            return Some(Reason::Context);
        }
        let (from, to) = (claim.moment_of_tables(), claim.last_moment());
        if above.failing.is_some() || from == to {
            return above.failing;
        }
        let (owner, entry) = (
            (claim.processor, above.context),
            (6 - claim.count, claim.linear),
        );
        self.past
            .is_structure_dropped(owner, entry, (from, to))
            .then_some(Reason::StructureDropped)
    }

    /// The tables above the last entry of a claim, where the registers at its last moment stand at
    /// a place.
    #[inline]
    fn tables_above(&mut self, claim: &Claim, place: usize) -> Tables {
        if claim.count == 1 {
            let control = self.past.processors[usize::from(claim.processor)].controls[place];
            return Tables::root(Key::NONE, control.root, control.context);
        }
        let key = Key::of_tables(claim);
        let slot = key.slot(self.tables.len());
        if self.tables[slot].key != key {
            self.tables[slot] = self.read_tables(key, claim, place);
        }
        self.tables[slot]
    }

    /// Follows the tables, reading each as it is at its moment.
    fn read_tables(&self, key: Key, claim: &Claim, place: usize) -> Tables {
        let processor = &self.past.processors[usize::from(claim.processor)];
        let moments = &claim.moments[..usize::from(claim.count - 1)];
        let first = processor.place_at(moments[0], place);
        let start = processor.controls[first];
        let mut tables = Tables::root(key, start.root, start.context);
        for (level, &moment) in [4, 3, 2].into_iter().zip(moments) {
            let address = tables.table + 8 * (claim.linear >> shift_of(level) & 511);
            let word = self.past.memory.value_at(address, moment);
            if self.rules.shape_of(level, word) != Shape::Table {
                tables.failing = Some(Reason::Entry);
                return tables;
            }
            tables.table = bits(word, 12, self.rules.address_bits);
            tables.rights = tables.rights.joined(word);
            tables.are_accessed &= has_bit(word, 5);
        }
        let is_foreign = |&moment: &u32| {
            processor.controls[processor.place_at(moment, place)].context != start.context
        };
        let owner = (claim.processor, start.context);
        let is_dropped = |(pair, level): (&[u32], u8)| {
            let entry = (level, claim.linear);
            pair[0] < pair[1]
                && self
                    .past
                    .is_structure_dropped(owner, entry, (pair[0], pair[1]))
        };
        if first != place && moments[1..].iter().any(is_foreign) {
            tables.failing = Some(Reason::Context);
        } else if moments.windows(2).zip([4, 3]).any(is_dropped) {
            tables.failing = Some(Reason::StructureDropped);
        }
        tables
    }
}

impl Tables {
    fn root(key: Key, table: u64, context: Context) -> Self {
        Tables {
            key,
            table,
            context,
            rights: Rights::ALL,
            are_accessed: true,
            failing: None,
        }
    }
}
