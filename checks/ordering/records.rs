// SPDX-License-Identifier: MIT OR Apache-2.0
//! Records of processors that run at once, with spans in the place of an order, and what is true of
//! them. It shares no code with the program. Sections are those of the Intel SDM, volume 3.
//!
//! usage: records machine|system|shadow|unlocked VERSION PROCESSORS WIDTH CUT EVENTS SEED [BUG]
//!                [--ordered|--truth]
//!        records racy VERSION SEED
//!        records changed VERSION SEED
//!        records truth FILE [STEPS]
//!
//! VERSION is 3 or 4. The first form writes a run on standard output. Of `machine` few words are
//! written by all at random, and `system` is a small operating system with TLB shootdowns (runs.rs);
//! `shadow` is such a system on a hypervisor with shadow paging (shadow.rs), and so is `unlocked`.
//! Around each event lies a span of at most WIDTH events to each side; with CUT 1 spans of one
//! processor do not overlap. In the runs with shadow paging an invalidation begins after the writes
//! that asked for it have ended, and in `shadow` writes to one word wait for each other: the system
//! takes a lock.
//!
//! BUG names what is done wrong: of `system` an invalidation that the machine leaves out at each
//! second occasion (invlpg, remote, invpcid, right), with shadow paging a bug of the hypervisor (flush,
//! remote, unsync, root, pcid, part, early, right), or none. With --ordered the record in the order of
//! the run is written, of version 1 or 2, each event with the placeholder 0 for its moments; with
//! --truth whether the machine may do the events in that order.
//!
//! `racy` writes a small record at random, and `changed` a short run of which one event is changed.
//! `truth` tries all orders of a record: `yes` or `no`, or with STEPS `unknown` where so many do not
//! tell.
mod changed;
mod events;
mod machine;
mod orders;
mod runs;
mod shadow;
mod spans;

use events::{encode, Deed, Event, Outcome, Rng, Settings};
use orders::{is_run, truth};
use runs::{Bug, Run, System, PRESENT};
use shadow::Guest;
use spans::Spans;
use std::io::{Read, Write};
use std::process::ExitCode;

/// What the words of a run ask for.
struct Asked<'a> { kind: &'a str, version: u64, processors: usize, width: f64, is_cut: bool, count: usize, seed: u64, bug: &'a str }
impl Asked<'_> {
    fn of(words: &[String]) -> Asked<'_> {
        let number = |i: usize| words[i].parse::<u64>().expect("a number");
        Asked {
            kind: &words[0],
            version: number(1),
            processors: number(2) as usize,
            width: words[3].parse().expect("a number"),
            is_cut: number(4) == 1,
            count: number(5) as usize,
            seed: number(6),
            bug: words.get(7).map_or("none", |word| word.as_str()),
        }
    }
}

/// The events of a run, and which wait for the end of which.
struct Made { settings: Settings, events: Vec<Event>, waits: Vec<(usize, usize)>, rng: Rng }

fn machine_run(asked: &Asked) -> Made {
    let mut run = Run::new(asked.version, asked.processors, asked.seed, runs::bug_of(asked.bug));
    if asked.kind == "machine" {
        for _ in 0..40 { run.random_write(0) }
        while run.events.len() < asked.count { run.machine_step() }
    } else {
        let mut system = System::new(run);
        system.pages = if asked.count > 20_000 { 2000 } else { 24 };
        while system.run.events.len() < asked.count { system.step() }
        run = system.run;
    }
    Made { settings: run.machine.settings, events: run.events, waits: vec![], rng: run.rng }
}

fn shadow_run(asked: &Asked) -> Made {
    let (bug, is_locked) = (shadow::bug_of(asked.bug), asked.kind == "shadow");
    let mut guest = Guest::new(asked.version, asked.processors, asked.seed, bug, is_locked);
    while guest.events.len() < asked.count { guest.step() }
    Made { settings: guest.settings, events: guest.events, waits: guest.waits, rng: guest.rng }
}

fn run_of(words: &[String]) -> Vec<u8> {
    let last = words.last().map_or("", |word| word.as_str());
    let asked = Asked::of(&words[..words.len() - last.starts_with("--") as usize]);
    let is_guest = matches!(asked.kind, "shadow" | "unlocked");
    let mut made = if is_guest { shadow_run(&asked) } else { machine_run(&asked) };
    match last {
        "--truth" => return told(is_run(&made.settings, &made.events)),
        "--ordered" => {
            made.settings.version -= 2;
            return encode(&made.settings, &made.events, &vec![0; made.events.len()]);
        }
        _ => {}
    }
    let mut spans = Spans::new(&made.events, asked.processors, asked.width, asked.is_cut, &mut made.rng);
    if !made.waits.is_empty() { spans.wait(&made.events, asked.processors, &made.waits, &mut made.rng) }
    let (order, backs) = spans.ended();
    let events: Vec<Event> = order.iter().map(|t| made.events[*t]).collect();
    encode(&made.settings, &events, &backs)
}

/// Four writes that make a page, and then few events at random.
fn racy(version: u64, seed: u64) -> Vec<u8> {
    let mut rng = Rng(seed ^ 0x5eed);
    let processors = 2 + rng.below(2) as usize;
    let mut run = Run::new(version, processors, seed, Bug::None);
    let marks = PRESENT | 0x60;
    for (address, value) in [(0x1000, 0x3000), (0x3000, 0x5000), (0x5000, 0x7000), (0x7000, 0x10000)] {
        run.push(0, Deed::Write { address, value: value | marks });
    }
    let more = 4 + rng.below(6);
    let frames = [0x10000, 0x11000, 0x12000];
    while (run.events.len() as u64) < 4 + more {
        let p = rng.below(processors as u64) as usize;
        let flags = rng.pick(&[4, 5, 0]);
        let linear = 0x80 + 0x1000 * (rng.below(8) / 7);
        match rng.below(20) {
            0..=5 => {
                let address = rng.pick(&[0x7000, 0x7000, 0x7000, 0x5000, 0x8000, 0x3000]);
                let value = match address {
                    0x5000 => rng.pick(&[0x7000, 0x8000]) | marks,
                    0x3000 => rng.pick(&[0x5000, 0x6000]) | marks,
                    _ => match rng.below(4) { 0 => 0, 1 => rng.pick(&frames) | 5 | rng.below(4) << 5, _ => rng.pick(&frames) | marks },
                };
                run.push(p, Deed::Write { address, value });
            }
            6 | 7 => run.push(p, Deed::InvalidatePage { linear: 0 }),
            8 => run.random_drop(p),
            9..=12 => {
                let outcome = Outcome::Page(rng.pick(&frames) | linear & 4095);
                run.push(p, Deed::Access { flags, linear, outcome });
            }
            _ => {
                for q in 0..processors { run.machine.walk(q, linear, 4, &mut rng); }
                let deed = run.machine.access(p, linear, flags, &mut rng);
                run.push(p, deed);
            }
        }
    }
    let mut indices: Vec<usize> = (0..run.events.len()).collect();
    for _ in 0..rng.below(4) {
        // what was told is not what happened
        let at = 4 + rng.below(more - 1) as usize;
        if run.events[at].processor != run.events[at + 1].processor || rng.percent(30) { indices.swap(at, at + 1) }
    }
    let shuffled: Vec<Event> = indices.iter().map(|i| run.events[*i]).collect();
    let width = rng.pick(&[1.0, 2.0, 4.0, 8.0]);
    let is_cut = rng.percent(70);
    let (order, backs) = Spans::new(&shuffled, processors, width, is_cut, &mut rng).ended();
    let events: Vec<Event> = order.iter().map(|t| shuffled[*t]).collect();
    encode(&run.machine.settings, &events, &backs)
}

fn read(name: &str) -> Vec<u8> {
    let mut bytes = vec![];
    std::fs::File::open(name).and_then(|mut file| file.read_to_end(&mut bytes)).expect("a record");
    bytes
}

/// What is true as far as so many steps tell, by a thread whose stack has room for them.
fn truth_in_a_thread(bytes: Vec<u8>, steps: u64) -> Vec<u8> {
    let trial = std::thread::Builder::new().stack_size(1 << 30).spawn(move || changed::truth_within(&bytes, steps));
    trial.expect("a thread").join().expect("an answer").map_or(b"unknown\n".to_vec(), told)
}

fn told(is_true: bool) -> Vec<u8> { if is_true { b"yes\n".to_vec() } else { b"no\n".to_vec() } }

fn main() -> ExitCode {
    let words: Vec<String> = std::env::args().skip(1).collect();
    let bytes = match words.first().map(|word| word.as_str()) {
        Some("machine" | "system" | "shadow" | "unlocked") if words.len() >= 7 => run_of(&words),
        Some("racy") if words.len() == 3 => racy(words[1].parse().unwrap(), words[2].parse().unwrap()),
        Some("changed") if words.len() == 3 => {
            let (settings, events, backs) = changed::changed_run(words[1].parse().unwrap(), words[2].parse().unwrap());
            encode(&settings, &events, &backs)
        }
        Some("truth") if words.len() == 2 => told(truth(&read(&words[1]))),
        Some("truth") if words.len() == 3 => {
            let steps = words[2].parse().unwrap();
            truth_in_a_thread(read(&words[1]), steps)
        }
        _ => { eprintln!("usage: see the head of records.rs"); return ExitCode::FAILURE }
    };
    std::io::stdout().write_all(&bytes).expect("room to write");
    ExitCode::SUCCESS
}
