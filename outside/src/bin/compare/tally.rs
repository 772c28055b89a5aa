//! What was compared, where it differed, and which refusals were reached.

use std::collections::BTreeMap;
use std::fmt::Debug;

/// Differences of one kind that are printed; the others are only counted.
const SHOWN: u64 = 5;
/// The characters of a kind.
const KIND: usize = 40;
/// The characters of one printed answer.
const ANSWER: usize = 600;

/// Which case of which part is at work: with the seed, all that it needs to be made again.
#[derive(Clone, Copy)]
pub struct Case {
    pub seed: u64,
    pub part: &'static str,
    pub number: u64,
}

#[derive(Default)]
pub struct Tally {
    pub compared: u64,
    pub differing: u64,
    /// Differences by kind: what was compared, without its numbers.
    pub kinds: BTreeMap<String, u64>,
    pub reached: BTreeMap<u32, u64>,
    pub frames: u64,
    pub sequences: u64,
    pub calls: u64,
    pub evaluations: u64,
    /// How often each thing happened that a job can come to.
    pub events: BTreeMap<&'static str, u64>,
}

fn short(answer: impl Debug) -> String {
    let mut words = format!("{answer:?}");
    if let Some((end, _)) = words.char_indices().nth(ANSWER) {
        words.truncate(end);
        words.push('…');
    }
    words
}

impl Tally {
    /// Compares one answer; what stands for it is printed where it differs.
    pub fn same<T: PartialEq + Debug>(&mut self, case: Case, what: &str, ours: T, library: T) -> bool {
        self.compared += 1;
        let is_same = ours == library;
        if !is_same {
            self.differing += 1;
            let kind = what.split_inclusive(|c: char| !c.is_ascii_digit()).map(|word| word.trim_start_matches(char::is_numeric));
            let seen = self.kinds.entry(kind.take(KIND).collect()).or_default();
            *seen += 1;
            if *seen <= SHOWN {
                println!("differs: --seed {} --only {} {}: {what}", case.seed, case.part, case.number);
                println!("  outside: {}", short(&ours));
                println!("  library: {}", short(&library));
            }
        }
        is_same
    }

    pub fn happened(&mut self, event: &'static str) {
        *self.events.entry(event).or_default() += 1;
    }

    pub fn reach(&mut self, number: u32) {
        if number != 0 {
            *self.reached.entry(number).or_default() += 1;
        }
    }
}
