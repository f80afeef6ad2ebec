// SPDX-License-Identifier: MIT OR Apache-2.0
//! Runs of which one event is changed, and what is true of a record in all orders, as far as so many
//! steps tell.
use crate::events::{Deed, Event, Outcome, Rng, Settings, Source};
use crate::machine::{Machine, Processor};
use crate::orders::linears_of;
use crate::runs::{Bug, Run, System};
use crate::shadow::{bug_of, Guest};
use crate::spans::Spans;
use std::collections::HashSet;

const WIDTHS: [f64; 4] = [1.0, 3.0, 10.0, 30.0];
const EVENTS: usize = 40;

/// An address with another offset, of a page beside it, or of one far off.
fn other_page(address: u64, bits: u32, rng: &mut Rng) -> u64 {
    match rng.below(3) {
        0 => address ^ 1 << rng.below(12),
        1 => address ^ 0x1000 << rng.below(3),
        _ => address ^ 1 << (12 + rng.below(u64::from(bits) - 12)),
    }
}

/// What an event says that is changed in one thing, where this kind of change is one of it.
fn changed_deed(kind: u64, deed: Deed, bits: u32, rng: &mut Rng) -> Option<Deed> {
    let changed = match (kind, deed) {
        (0, Deed::Access { flags, linear, outcome: Outcome::Page(address) }) => {
            Deed::Access { flags, linear, outcome: Outcome::Page(other_page(address, bits, rng)) }
        }
        (1, Deed::Access { flags, linear, outcome: Outcome::Fault(code) }) => {
            Deed::Access { flags, linear, outcome: Outcome::Fault(code ^ rng.pick(&[1, 2, 4, 8, 16, 9, 5, 6])) }
        }
        (2, Deed::Write { address, value }) => {
            Deed::Write { address, value: value ^ rng.pick(&[1, 2, 4, 1 << 63, 1 << 8, 1 << 7]) }
        }
        (3, Deed::Write { address, value }) => Deed::Write { address, value: value ^ 0x1000 << rng.below(3) },
        (4, Deed::Write { address, value }) => {
            Deed::Write { address: address ^ rng.pick(&[8, 0x1000, 0x2000]), value }
        }
        (4, Deed::Assist { flags, linear, word }) => {
            Deed::Assist { flags, linear, word: word ^ rng.pick(&[8, 0x1000, 0x2000]) }
        }
        (5, Deed::Access { flags, linear, outcome }) => {
            Deed::Access { flags: flags ^ rng.pick(&[4, 1, 8]), linear, outcome }
        }
        (5, Deed::Assist { flags, linear, word }) => {
            Deed::Assist { flags: flags ^ rng.pick(&[4, 16, 8]), linear, word }
        }
        (6, Deed::Access { flags, linear, outcome }) => {
            Deed::Access { flags, linear: linear ^ rng.pick(&[0x1000, 0x20_0000, 0x4000_0000]), outcome }
        }
        _ => return None,
    };
    is_formed(changed).then_some(changed)
}

/// Whether the flags of an event are well formed.
fn is_formed(deed: Deed) -> bool {
    match deed {
        Deed::Access { flags, .. } => flags & 3 != 3,
        Deed::Assist { flags, .. } => flags & 3 != 3 && (flags & 16 == 0 || flags & 3 == 1),
        _ => true,
    }
}

/// Changes one event, leaves it out, or moves it.
fn change(events: &mut Vec<Event>, bits: u32, rng: &mut Rng) {
    loop {
        let count = events.len() as u64;
        let at = (4 + rng.below(count - 5)) as usize;
        match rng.below(9) {
            7 => { events.remove(at); return }
            8 => {
                let near = (at + 1 + rng.below(8) as usize).min(events.len() - 2);
                let to = if rng.percent(60) { near } else { (4 + rng.below(count - 5)) as usize };
                let event = events.remove(at);
                events.insert(to, event);
                if to != at { return }
            }
            kind => if let Some(deed) = changed_deed(kind, events[at].deed, bits, rng) {
                events[at].deed = deed;
                return;
            }
        }
    }
}

/// The events of a short run, and those that its system does before.
fn short_run(version: u64, processors: usize, seed: u64) -> (Settings, Vec<Event>, Rng) {
    if seed % 4 == 3 {
        let mut guest = Guest::new(version, processors, seed, bug_of("none"), true);
        while guest.events.len() < EVENTS { guest.step() }
        return (guest.settings, guest.events, guest.rng);
    }
    let mut run = Run::new(version, processors, seed, Bug::None);
    if seed % 4 == 2 {
        let mut system = System::new(run);
        system.pages = 24;
        let before = system.run.events.len();
        while system.run.events.len() < EVENTS + before { system.step() }
        run = system.run;
    } else {
        for _ in 0..12 { run.random_write(0) }
        while run.events.len() < EVENTS { run.machine_step() }
    }
    (run.machine.settings, run.events, run.rng)
}

/// A short run of which one event is changed, with spans around its events.
pub fn changed_run(version: u64, seed: u64) -> (Settings, Vec<Event>, Vec<u64>) {
    let processors = 2 + (seed / 4 % 5) as usize;
    let (settings, mut events, mut rng) = short_run(version, processors, seed);
    change(&mut events, settings.bits, &mut rng);
    let width = WIDTHS[(seed / 20 % 4) as usize];
    let spans = Spans::new(&events, processors, width, seed / 80 % 2 == 0, &mut rng);
    let (order, backs) = spans.ended();
    (settings, order.iter().map(|t| events[*t]).collect(), backs)
}

type Seen = HashSet<(Vec<usize>, Vec<(u64, u64)>, Vec<Processor>)>;

/// A trial of all orders. An access that may be answered at once is: that takes no other order away.
struct Trial { events: Vec<Event>, sinces: Vec<usize>, own: Vec<Vec<usize>>, linears: Vec<u64>, seen: Seen, left: u64 }
impl Trial {
    /// The events that may come next where so many of each processor have come.
    fn next(&self, machine: &Machine, front: &[usize]) -> Vec<usize> {
        let waiting: Vec<usize> = front.iter().zip(&self.own).filter_map(|(n, own)| own.get(*n).copied()).collect();
        let least = waiting.iter().copied().min().unwrap_or(0);
        let may = |i: &usize| self.sinces[*i] <= least && machine.may(&self.events[*i]);
        let next: Vec<usize> = waiting.into_iter().filter(may).collect();
        let is_answer = |i: &&usize| matches!(self.events[**i].deed, Deed::Access { outcome: Outcome::Page(_), .. });
        next.iter().find(is_answer).map_or(next.clone(), |i| vec![*i])
    }

    fn go(&mut self, machine: &Machine, front: &mut Vec<usize>) -> Option<bool> {
        if front.iter().sum::<usize>() == self.events.len() { return Some(true) }
        let mut memory: Vec<(u64, u64)> = machine.memory.iter().map(|(a, v)| (*a, *v)).collect();
        memory.sort();
        if !self.seen.insert((front.clone(), memory, machine.processors.clone())) { return Some(false) }
        self.left = self.left.checked_sub(1)?;
        for i in self.next(machine, front) {
            let p = self.events[i].processor;
            let mut after = machine.clone();
            after.change(&self.events[i], false);
            after.fill(&self.linears);
            front[p] += 1;
            let found = self.go(&after, front);
            front[p] -= 1;
            if found != Some(false) { return found }
        }
        Some(false)
    }
}

/// Whether the machine may do the events of a record in some order; None where so many steps do not
/// tell.
pub fn truth_within(bytes: &[u8], steps: u64) -> Option<bool> {
    let (settings, events, backs) = Source { bytes, at: 0 }.record();
    let mut own = vec![vec![]; settings.processors.len()];
    let mut sinces = vec![];
    for (i, event) in events.iter().enumerate() {
        let before: usize = own[event.processor].last().map_or(0, |j: &usize| sinces[*j]);
        sinces.push(before.max(i - backs[i] as usize));
        own[event.processor].push(i);
    }
    let linears = linears_of(&events);
    let mut machine = Machine::new(&settings);
    machine.fill(&linears);
    let mut front = vec![0; own.len()];
    Trial { events, sinces, own, linears, seen: HashSet::new(), left: steps }.go(&machine, &mut front)
}
