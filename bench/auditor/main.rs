// SPDX-License-Identifier: MIT OR Apache-2.0
//! An auditor of records of multiprocessor runs under x86-64 four-level paging with PCIDs.
//! `auditor [THREADS]` reads a record of version 1 or 2 from standard input, and reports whether
//! the moments that it names prove its accesses and assists.
mod judge;
mod lists;
mod memory;
mod past;
mod record;
mod walk;

use crate::record::{check, read_record, Refusal, Taken, DEVICE};
use std::io::Write;
use std::process::ExitCode;

/// Judges standard input, reports, and says whether it is accepted.
fn audit(threads: usize) -> Taken<bool> {
    let record = read_record(std::io::stdin().lock())?;
    let bad = record.first_bad(threads);
    let verdict = match bad {
        None => String::from("yes"),
        Some((event, reason)) => format!("no\nevent: {event}\nreason: {reason}"),
    };
    let (events, segments) = (
        record.events,
        record.events.div_ceil(record.past.header.segment_size),
    );
    let report = format!("verdict: {verdict}\nevents: {events}\nsegments: {segments}\n");
    check(
        std::io::stdout().write_all(report.as_bytes()).is_ok(),
        DEVICE,
    )?;
    // The process ends now: to free each list of the index would only take time.
    std::mem::forget(record);
    Ok(bad.is_none())
}

/// The number of threads. The word `check` may stand before it.
fn threads_of(arguments: &[String]) -> Option<usize> {
    match arguments
        .strip_prefix(&[String::from("check")])
        .unwrap_or(arguments)
    {
        [] => Some(1),
        [threads] => threads
            .parse()
            .ok()
            .filter(|threads| (1..=64).contains(threads)),
        _ => None,
    }
}

fn main() -> ExitCode {
    let arguments: Vec<String> = std::env::args().skip(1).collect();
    let Some(threads) = threads_of(&arguments) else {
        eprintln!("usage: auditor [check] [THREADS] < RECORD");
        return ExitCode::from(64);
    };
    match audit(threads) {
        Ok(is_accepted) => ExitCode::from(u8::from(!is_accepted)),
        Err(Refusal::Plain(name)) => refused(name),
        Err(Refusal::Malformed { event, rule }) => {
            refused(&format!("7 malformed event {event} rule {rule}"))
        }
    }
}

fn refused(name: &str) -> ExitCode {
    eprintln!("pcid-audit: refused {name}");
    ExitCode::from(2)
}
