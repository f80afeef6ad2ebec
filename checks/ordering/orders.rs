// SPDX-License-Identifier: MIT OR Apache-2.0
//! What is true of a run in its own order, and of a small record in all orders.
use crate::events::{Deed, Event, Settings, Source};
use crate::machine::{Machine, Processor};
use std::collections::{BTreeSet, HashSet};

pub type Seen = HashSet<(u64, Vec<(u64, u64)>, Vec<Processor>)>;
pub struct Trier { pub events: Vec<Event>, pub sinces: Vec<usize>, pub linears: Vec<u64>, pub seen: Seen }
impl Trier {
    pub fn precedes(&self, j: usize, i: usize) -> bool {
        j < self.sinces[i] || j < i && self.events[j].processor == self.events[i].processor
    }

    pub fn go(&mut self, machine: &Machine, placed: u64) -> bool {
        if placed.count_ones() as usize == self.events.len() { return true }
        let mut memory: Vec<(u64, u64)> = machine.memory.iter().map(|(a, v)| (*a, *v)).collect();
        memory.sort();
        if !self.seen.insert((placed, memory, machine.processors.clone())) { return false }
        for i in 0..self.events.len() {
            let waits = (0..self.events.len()).any(|j| placed >> j & 1 == 0 && self.precedes(j, i));
            if placed >> i & 1 == 1 || waits || !machine.may(&self.events[i]) { continue }
            let mut next = machine.clone();
            next.change(&self.events[i], false);
            next.fill(&self.linears);
            if self.go(&next, placed | 1 << i) { return true }
        }
        false
    }
}

/// The addresses of all accesses.
pub fn linears_of(events: &[Event]) -> Vec<u64> {
    let linears: BTreeSet<u64> = events.iter().filter_map(|event| match event.deed {
        Deed::Access { linear, .. } | Deed::Assist { linear, .. } => Some(linear),
        _ => None,
    }).collect();
    linears.into_iter().collect()
}

/// Whether the machine may do the events one after another.
pub fn is_run(settings: &Settings, events: &[Event]) -> bool {
    let linears = linears_of(events);
    let mut machine = Machine::new(settings);
    machine.fill(&linears);
    events.iter().all(|event| {
        let may = machine.may(event);
        machine.change(event, false);
        machine.fill(&linears);
        may
    })
}

/// Whether the machine may do the events of a record in some order.
pub fn truth(bytes: &[u8]) -> bool {
    let (settings, events, backs) = Source { bytes, at: 0 }.record();
    let sinces = backs.iter().enumerate().map(|(i, back)| i - *back as usize).collect();
    let linears = linears_of(&events);
    let mut machine = Machine::new(&settings);
    machine.fill(&linears);
    Trier { events, sinces, linears, seen: HashSet::new() }.go(&machine, 0)
}
