// SPDX-License-Identifier: MIT OR Apache-2.0
//! Spans around the events of a run.
use crate::events::{Event, Rng};

/// When each event of a run began and ended, where it came to pass at the time that is its place.
pub struct Spans { begins: Vec<f64>, ends: Vec<f64> }
impl Spans {
    /// At most `width` to each side. Where `is_cut`, spans of one processor do not overlap; else they
    /// end in its order.
    pub fn new(events: &[Event], processors: usize, width: f64, is_cut: bool, rng: &mut Rng) -> Spans {
        let count = events.len();
        let begins = (0..count).map(|t| t as f64 - width * rng.part()).collect();
        let ends = (0..count).map(|t| t as f64 + 0.001 + width * rng.part()).collect();
        let mut spans = Spans { begins, ends };
        let mut last: Vec<Option<usize>> = vec![None; processors];
        for (t, event) in events.iter().enumerate() {
            if let Some(before) = last[event.processor].replace(t) {
                if is_cut { spans.cut(before, t, rng) } else {
                    spans.ends[t] = spans.ends[t].max(spans.ends[before] + 0.0001);
                }
            }
        }
        spans
    }

    /// The later event begins after the earlier one ended.
    fn cut(&mut self, before: usize, t: usize, rng: &mut Rng) {
        let cut = before as f64 + 0.01 + (t as f64 - before as f64 - 0.02) * rng.part();
        self.ends[before] = self.ends[before].min(cut - 0.002);
        self.begins[t] = self.begins[t].max(cut);
    }

    /// The same of pairs of events. What their processors did before ended before, too.
    pub fn wait(&mut self, events: &[Event], processors: usize, waits: &[(usize, usize)], rng: &mut Rng) {
        for (before, t) in waits { self.cut(*before, *t, rng) }
        let mut next = vec![f64::MAX; processors];
        for (t, event) in events.iter().enumerate().rev() {
            self.ends[t] = self.ends[t].min(next[event.processor] - 0.0001);
            next[event.processor] = self.ends[t];
        }
    }

    /// The order in which the events end, and `back` of each.
    pub fn ended(&self) -> (Vec<usize>, Vec<u64>) {
        let mut order: Vec<usize> = (0..self.ends.len()).collect();
        order.sort_by(|one, other| self.ends[*one].total_cmp(&self.ends[*other]));
        let sorted: Vec<f64> = order.iter().map(|t| self.ends[*t]).collect();
        let backs = order.iter().enumerate().map(|(i, t)| {
            let since = sorted.partition_point(|end| *end < self.begins[*t]).min(i);
            (i - since) as u64
        }).collect();
        (order, backs)
    }
}
