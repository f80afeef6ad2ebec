// SPDX-License-Identifier: MIT OR Apache-2.0
//! Whether moments prove an access or an assist.
use crate::record::{
    bits, check, has_bit, Claim, Flags, Header, Kind, Record, EXECUTE_DISABLE, FETCH_PREVENTION,
};
use crate::walk::{Shape, Walk, Walker};
use std::sync::atomic::{AtomicUsize, Ordering};

/// Why a claim is not proved, the least first.
#[derive(Clone, Copy, PartialEq, Eq, PartialOrd, Ord)]
pub enum Reason {
    Order = 1,
    Entry,
    Context,
    StructureDropped,
    TranslationDropped,
    ForeignPcid,
    NotAtEvent,
    Rights,
    Answer,
    Code,
    Accessed,
    Dirty,
    Assist,
}

impl std::fmt::Display for Reason {
    fn fmt(&self, text: &mut std::fmt::Formatter) -> std::fmt::Result {
        let name = match self {
            Reason::Order => "order",
            Reason::Entry => "entry",
            Reason::Context => "context",
            Reason::StructureDropped => "structure dropped",
            Reason::TranslationDropped => "translation dropped",
            Reason::ForeignPcid => "foreign PCID",
            Reason::NotAtEvent => "absent read not at event",
            Reason::Rights => "rights",
            Reason::Answer => "answer",
            Reason::Code => "code",
            Reason::Accessed => "accessed",
            Reason::Dirty => "dirty",
            Reason::Assist => "assist",
        };
        write!(text, "{} {name}", *self as u8)
    }
}

/// The error code of a page fault by the entry that a walk ends with.
fn fault_code(header: &Header, flags: Flags, last: Shape) -> u64 {
    let sets_fetch = header.sets(FETCH_PREVENTION) || header.sets(EXECUTE_DISABLE);
    u64::from(last != Shape::Absent)
        | u64::from(flags.is_write()) << 1
        | u64::from(flags.is_user()) << 2
        | u64::from(last == Shape::Reserved) << 3
        | u64::from(flags.is_fetch() && sets_fetch) << 4
}

/// Whether an entry may be the last of the claim's walk.
fn is_wanted(claim: &Claim, last: Shape) -> bool {
    match claim.kind {
        Kind::Assist => matches!(last, Shape::Leaf | Shape::Table),
        Kind::Fault if !has_bit(claim.value, 0) => last == Shape::Absent,
        Kind::Fault if has_bit(claim.value, 3) => last == Shape::Reserved,
        _ => last == Shape::Leaf,
    }
}

struct Judge<'record> {
    record: &'record Record,
    walker: Walker<'record>,
}

impl Judge<'_> {
    /// Whether the moments prove the claim, or the least reason why not.
    #[inline]
    fn prove(&mut self, claim: &Claim) -> Result<(), Reason> {
        check(claim.is_in_order(), Reason::Order)?;
        let walk = self.walker.walk(claim);
        check(walk.failing != Some(Reason::Entry), Reason::Entry)?;
        check(is_wanted(claim, walk.shape), Reason::Entry)?;
        walk.failing.map_or(Ok(()), Err)?;
        if claim.kind == Kind::Assist {
            return prove_assist(claim, walk);
        }
        let header = &self.record.past.header;
        if walk.shape == Shape::Leaf {
            self.record.prove_use(claim, walk)?;
        } else {
            check(claim.last_moment() == claim.number, Reason::NotAtEvent)?;
        }
        let is_answer = claim.kind == Kind::Answer;
        if is_answer {
            check(
                claim.value == walk.page | bits(claim.linear, 0, 12),
                Reason::Answer,
            )?;
        } else {
            check(
                claim.value == fault_code(header, claim.flags, walk.shape),
                Reason::Code,
            )?;
        }
        if header.version == 1 {
            return Ok(());
        }
        let is_accessed = walk.shape != Shape::Leaf || walk.is_accessed;
        check(walk.are_tables_accessed && is_accessed, Reason::Accessed)?;
        let wants_dirty = is_answer && claim.flags.is_write();
        check(!wants_dirty || walk.is_dirty, Reason::Dirty)
    }
}

fn prove_assist(claim: &Claim, walk: &Walk) -> Result<(), Reason> {
    check(walk.are_tables_accessed, Reason::Accessed)?;
    let is_at_event = claim.last_moment() == claim.number;
    check(is_at_event && walk.address == claim.value, Reason::Assist)?;
    let may_dirty = walk.shape == Shape::Leaf && walk.allows(claim.flags);
    check(!claim.flags.says_dirty() || may_dirty, Reason::Assist)
}

impl Record {
    /// Whether the translation still stands at the access, may be used, and allows what was done.
    #[inline]
    fn prove_use(&self, claim: &Claim, walk: &Walk) -> Result<(), Reason> {
        check(claim.number <= walk.end, Reason::TranslationDropped)?;
        let processor = &self.past.processors[usize::from(claim.processor)];
        let is_current =
            walk.is_global || processor.controls[claim.control as usize].context == walk.context;
        check(is_current, Reason::ForeignPcid)?;
        let is_answer = claim.kind == Kind::Answer;
        check(walk.allows(claim.flags) == is_answer, Reason::Rights)
    }

    /// The least event that is not proved, judged by so many threads.
    pub fn first_bad(&self, threads: usize) -> Option<(u32, Reason)> {
        /// Claims that a thread takes at a time.
        const PART: usize = 1 << 14;
        let next = AtomicUsize::new(0);
        let judge = || {
            let walker = Walker::new(&self.past, self.claims.len());
            let mut judge = Judge {
                record: self,
                walker,
            };
            loop {
                let part = next.fetch_add(1, Ordering::Relaxed);
                let claims = self.claims.chunks(PART).nth(part)?;
                let bad = |claim: &Claim| Some((claim.number, judge.prove(claim).err()?));
                if let Some(bad) = claims.iter().find_map(bad) {
                    // Whoever has taken a part finishes it, and all before this one are taken.
                    next.store(self.claims.len(), Ordering::Relaxed);
                    return Some(bad);
                }
            }
        };
        if threads == 1 {
            return judge();
        }
        std::thread::scope(|scope| {
            let judges: Vec<_> = (0..threads).map(|_| scope.spawn(judge)).collect();
            let found = judges
                .into_iter()
                .map(|judge| judge.join().expect("a judge panicked"));
            found.flatten().min()
        })
    }
}
