//! Compares the static library with this planner, answer by answer, on random inputs.
//!
//! `compare [--seed S] [--frames N] [--sequences N] [--clauses N] [--long N] [--only PART CASE]`

#[path = "../../linked.rs"]
mod linked;

mod bounds;
mod calls;
mod events;
mod frames;
mod ours;
mod parts;
mod prepared;
mod random;
mod sequences;
mod tally;
mod wrong;

use std::fmt::Display;
use std::process::ExitCode;
use std::time::Instant;
use tally::{Case, Tally};

struct Wanted {
    seed: u64,
    frames: u64,
    sequences: u64,
    clauses: u64,
    long: u64,
    only: Option<(String, u64)>,
}

fn wanted() -> Result<Wanted, String> {
    let mut wanted = Wanted { seed: 1, frames: 500_000, sequences: 400_000, clauses: 3_000_000, long: 150, only: None };
    let mut words = std::env::args().skip(1);
    while let Some(option) = words.next() {
        let mut number = || words.next().and_then(|word| word.parse::<u64>().ok()).ok_or(format!("{option} wants a number"));
        match option.as_str() {
            "--seed" => wanted.seed = number()?,
            "--frames" => wanted.frames = number()?,
            "--sequences" => wanted.sequences = number()?,
            "--clauses" => wanted.clauses = number()?,
            "--long" => wanted.long = number()?,
            "--only" => {
                let part = words.next().ok_or("--only wants a part")?;
                let case = words.next().and_then(|word| word.parse().ok()).ok_or("--only wants a part and a case")?;
                wanted.only = Some((part, case));
            }
            _ => return Err(format!("no option is named {option}")),
        }
    }
    Ok(wanted)
}

/// A part: its name, how many cases it has, and what one case does.
type Part = (&'static str, u64, fn(&mut Tally, Case));

fn run(tally: &mut Tally, seed: u64, (part, count, case): Part) {
    let (begun, compared) = (Instant::now(), tally.compared);
    for number in 0..count {
        case(tally, Case { seed, part, number });
    }
    println!("{part}: {count} cases, {} compared, {:.1} s", tally.compared - compared, begun.elapsed().as_secs_f64());
}

/// Every question that a call of the library can refuse by.
const QUESTIONS: [u32; 35] = [
    10, 11, 12, 13, 14, 15, 16, 17, 18, 20, 21, 22, 23, 24, 25, 30, 31, 32, 40, 41, 42, 43, 44, 45, 46, 50, 51, 60, 61, 62, 70,
    71, 72, 254, 255,
];

fn main() -> ExitCode {
    let wanted = match wanted() {
        Ok(wanted) => wanted,
        Err(fault) => {
            eprintln!("compare: {fault}");
            return ExitCode::from(2);
        }
    };
    let parts: [Part; 6] = [
        ("clauses", wanted.clauses, parts::clauses),
        ("frames", wanted.frames, parts::frames),
        ("rewriting", wanted.frames / 4, parts::rewriting),
        ("sequences", wanted.sequences, sequences::short),
        ("long-frames", wanted.long, parts::long_frames),
        ("long-sequences", wanted.long, sequences::long),
    ];
    let mut tally = Tally::default();
    match &wanted.only {
        Some((part, number)) => match parts.iter().find(|(name, _, _)| name == part) {
            Some(&(part, _, case)) => case(&mut tally, Case { seed: wanted.seed, part, number: *number }),
            None => eprintln!("compare: no part is named {part}"),
        },
        None => parts.into_iter().for_each(|part| run(&mut tally, wanted.seed, part)),
    }
    report(&tally, wanted.only.is_none())
}

fn counts(counts: impl Iterator<Item = (impl Display, u64)>) -> String {
    counts.map(|(what, count)| format!("{what}: {count}")).collect::<Vec<_>>().join(", ")
}

/// What was met and what was not; a whole run is to meet all.
fn report(tally: &Tally, is_whole: bool) -> ExitCode {
    println!(
        "{} frames, {} sequences of {} calls with {} evaluations",
        tally.frames, tally.sequences, tally.calls, tally.evaluations
    );
    println!("what jobs came to: {}", counts(tally.events.iter().map(|(&event, &count)| (event, count))));
    println!("refusals reached: {}", counts(tally.reached.iter().map(|(&number, &count)| (number, count))));
    let refusals = QUESTIONS.iter().filter(|number| !tally.reached.contains_key(number)).map(u32::to_string);
    let events = events::EVERY
        .iter()
        .chain(&bounds::EVERY)
        .chain(&bounds::CLASHES)
        .chain(&prepared::EVERY)
        .filter(|event| !tally.events.contains_key(*event))
        .map(|event| event.to_string());
    let missed: Vec<String> = refusals.chain(events).filter(|_| is_whole).collect();
    if !missed.is_empty() {
        println!("never reached: {}", missed.join(", "));
    }
    if !tally.kinds.is_empty() {
        println!("differences: {}", counts(tally.kinds.iter().map(|(kind, &count)| (kind, count))));
    }
    println!("{} compared, {} differ", tally.compared, tally.differing);
    if tally.differing > 0 || !missed.is_empty() { ExitCode::FAILURE } else { ExitCode::SUCCESS }
}
