//! Jobs and memories that are none or too short: each call refuses, and nothing else changes.

use crate::linked::{Answer, Call, Clash, Job as Words, Prepared, Work};
use crate::ours::{self, CLASS_MEMORY, NO_JOB, SPEED_MEMORY};
use crate::random::Random;
use crate::tally::{Case, Tally};

const SAMPLES_LEAST: u64 = 2;
const SAMPLES_MOST: u64 = 4096;
const IMPOSSIBLE: u8 = 3;
const MEMORY: u32 = 4;
const BEFORE: u8 = 0xa5;

/// Whether these words are a job's.
fn are_a_job(words: &Words) -> bool {
    (SAMPLES_LEAST..=SAMPLES_MOST).contains(&words.samples)
        && words.visited < words.samples
        && words.state <= IMPOSSIBLE
        && words.falling <= 1
        && words.marked <= 1
        && words.spare == 0
        && (words.state == IMPOSSIBLE || words.found == 0)
}

/// What a call on this work refuses before it asks anything else.
fn refused(work: &Work) -> u32 {
    let samples = work.job.samples as usize;
    match () {
        _ if !are_a_job(&work.job) => NO_JOB,
        _ if work.classes.len() < samples => CLASS_MEMORY,
        _ if work.speeds.len() < samples => SPEED_MEMORY,
        _ => 0,
    }
}

fn spoil_words(random: &Random, job: &mut Words) {
    let n = job.samples;
    let byte = random.pick(&[1, 2, 4, 128, 255]);
    match random.up_to(8) {
        0 => *job = Words::default(),
        1 => job.samples = random.pick(&[0, 1, 4097, 1 << 16 | n, 1 << 32 | n, u64::MAX]),
        2 => job.visited = random.pick(&[n, n + 1, 1 << 16 | n, 1 << 32, u64::MAX, random.next()]),
        3 => job.found = random.pick(&[1, n - 1, n, n + 1, 1 << 32, u64::MAX]),
        4 => job.state = random.pick(&[3, 4, 5, 128, 255]),
        5 => job.falling = byte,
        6 => job.marked = byte,
        7 => job.spare = byte,
        _ => (job.visited, job.spare) = (random.pick(&[0, n - 1, n]), random.pick(&[0, 1])),
    }
}

fn spoil(random: &Random, work: &mut Work) {
    let n = work.job.samples as usize;
    let which = random.up_to(5);
    if which <= 3 {
        spoil_words(random, &mut work.job);
    }
    if which == 0 || which == 4 {
        work.classes.truncate(random.index(n));
    }
    if which == 0 || which == 5 || random.percent(20) {
        work.speeds.truncate(random.index(n));
    }
}

/// Every call on a work whose words or memories are spoilt, under a frame as it lies or prepared.
pub fn calls(tally: &mut Tally, case: Case, random: &Random, work: &Work, (frame, prepared): (&[u8], &Prepared)) {
    let mut spoilt = work.clone();
    spoil(random, &mut spoilt);
    let number = refused(&spoilt);
    if number == 0 {
        return;
    }
    tally.reach(number);
    let what = |call| format!("{call} on {:?} in {} and {} cells", spoilt.job, spoilt.classes.len(), spoilt.speeds.len());
    let mut library = spoilt.clone();
    let mut answers = [ours::UNWRITTEN; 2];
    let mut refusal = ours::bare(number);
    if number != NO_JOB {
        refusal.layer = MEMORY;
    }
    let answer = library.run(frame, &[Call::default(); 2], &mut answers);
    tally.same(case, &what("the refusal of a run"), refusal, answer);
    tally.same(case, &what("the answers of a run"), [ours::UNWRITTEN; 2], answers);
    let answer = Answer { number, state: spoilt.job.state.into(), found: spoilt.job.found, ..Answer::default() };
    let allowance = random.up_to(9);
    tally.same(case, &what("the answer to an advance"), answer, library.advance(frame, allowance));
    let prepared_answer = library.advance_prepared(frame, prepared, allowance);
    tally.same(case, &what("the answer to an advance under the frame prepared"), answer, prepared_answer);
    let mut out = [BEFORE; 40];
    tally.same(case, &what("the answer to setpoints"), (0, ours::bare(number)), library.setpoints(&mut out));
    tally.same(case, &what("the memory of setpoints"), [BEFORE; 40], out);
    tally.same(case, &what("the sufficient allowance"), 0, library.sufficient());
    if number != NO_JOB {
        let (make, sample) = (random.up_to(1) as u8, random.up_to(spoilt.job.samples));
        tally.same(case, &what("what holds a value"), 0, library.bound(frame, make, sample));
        tally.same(case, &what("what clashes"), Clash::default(), library.clash(frame, sample));
    }
    tally.same(case, &what("what refused calls leave"), &spoilt, &library);
}
