//! Jobs: made in memories of every length, then random calls, then setpoints.

use crate::bounds;
use crate::calls;
use crate::events;
use crate::frames::{self, Layout};
use crate::linked::{Answer, Call, Clash, ClassCell, Prepared, SpeedCell, Work};
use crate::ours::{self, ADVANCE};
use crate::parts;
use crate::prepared;
use crate::random::Random;
use crate::tally::{Case, Tally};
use crate::wrong;
use outside::Path;
use outside::job::{Job, State};

const BEFORE: u8 = 0xa5;

/// A job on both sides: `library` is its words and cells there, `expected` what they should be.
struct Both {
    case: Case,
    frame: Vec<u8>,
    layout: Layout,
    path: Path,
    prepared: Prepared,
    job: Job,
    library: Work,
    expected: Work,
}

impl Both {
    fn compare(&self, tally: &mut Tally, after: &str) {
        tally.same(self.case, &format!("the job after {after}"), &self.expected.job, &self.library.job);
        tally.same(self.case, &format!("the class cells after {after}"), &self.expected.classes, &self.library.classes);
        tally.same(self.case, &format!("the speed cells after {after}"), &self.expected.speeds, &self.library.speeds);
    }

    fn expect(&mut self) {
        ours::put(&self.job, &mut self.expected);
    }

    /// Some calls in one run of the library, with a place for each answer, for fewer or for more.
    fn run(&mut self, tally: &mut Tally, random: &Random, budget: u64) {
        let k = random.index(8);
        let r = random.pick(&[k, k, k, random.index(k + 1), k + random.index(3)]);
        let mut calls: Vec<Call> = Vec::with_capacity(k);
        let mut expected = vec![ours::UNWRITTEN; r];
        for step in 0..k {
            let call = calls::call(random, &self.job, &self.path, budget);
            calls.push(call);
            if let Some(answer) = expected.get_mut(step) {
                *answer = self.call(tally, call);
            }
        }
        let mut answers = vec![ours::UNWRITTEN; r];
        let refusal = self.library.run(&self.frame, &calls, &mut answers);
        tally.same(self.case, "the refusal of a run", ours::NO_REFUSAL, refusal);
        for (step, (ours, library)) in expected.iter().zip(&answers).enumerate() {
            let what = format!("the answer to {:?}, call {step} of {calls:?} with {r} places", calls.get(step));
            tally.same(self.case, &what, ours, library);
        }
        self.expect();
        self.compare(tally, &format!("{calls:?}"));
    }

    /// A call on this planner's job alone.
    fn call(&mut self, tally: &mut Tally, call: Call) -> Answer {
        let before = self.job.clone();
        let answer = ours::call(&mut self.job, &self.path, call);
        tally.calls += 1;
        tally.evaluations += answer.evaluations;
        tally.reach(answer.number);
        if answer.number == 0 {
            events::of_call(&before, call, &self.job).into_iter().for_each(|event| tally.happened(event));
        }
        answer
    }

    /// One advance that does not read the frame again, under the frame as it lies and under the frame prepared.
    fn advance(&mut self, tally: &mut Tally, random: &Random, budget: u64) {
        let call = calls::call(random, &self.job, &self.path, budget);
        let is_advance = call.kind == ADVANCE;
        let value = if is_advance { call.value } else { random.up_to(2 * self.layout.samples as u64) };
        self.advance_by(tally, value);
    }

    fn advance_by(&mut self, tally: &mut Tally, allowance: u64) {
        let expected = self.call(tally, Call { value: allowance, ..Call::default() });
        let what = format!("an advance by {allowance}");
        let mut beside = self.library.clone();
        let answer = beside.advance_prepared(&self.frame, &self.prepared, allowance);
        tally.same(self.case, &format!("the answer to {what} under the frame prepared"), expected, answer);
        let answer = self.library.advance(&self.frame, allowance);
        tally.same(self.case, &format!("the answer to {what}"), expected, answer);
        self.expect();
        self.compare(tally, &what);
        tally.same(self.case, &format!("the job and the cells after {what} under the frame prepared"), &self.expected, &beside);
    }

    /// A run and a making on a damaged frame change nothing.
    fn refused(&mut self, tally: &mut Tally, random: &Random) {
        let frame = parts::damaged(random, self.frame.clone(), self.layout);
        let read = Path::read(&frame);
        if read.is_err() {
            let refusal = ours::refusal(&read);
            tally.reach(refusal.number);
            let mut answers = [ours::UNWRITTEN; 2];
            let answer = self.library.run(&frame, &[Call::default(); 2], &mut answers);
            tally.same(self.case, "the refusal of a run on a damaged frame", refusal, answer);
            tally.same(self.case, "the answers of a run on a damaged frame", [ours::UNWRITTEN; 2], answers);
            tally.same(self.case, "the refusal of a making on a damaged frame", refusal, self.library.make(&frame));
            self.compare(tally, "refused calls on a damaged frame");
        }
    }

    fn sufficient(&mut self, tally: &mut Tally) {
        tally.same(self.case, "the sufficient allowance", self.job.sufficient_allowance(), self.library.sufficient());
    }

    /// What holds a sample's class or speed, and what clashes with its floors.
    fn bounds(&mut self, tally: &mut Tally, random: &Random) {
        let n = self.layout.samples;
        let sample = match self.job.state {
            State::Impossible { found } if random.percent(60) => found as u64,
            _ => calls::sample(random, n),
        };
        let make = random.pick(&[0, 1, 0, 1, 1, 1, 2, 255]);
        let holder = bounds::holder(&self.job, &self.path, make, sample);
        tally.happened(bounds::event(bounds::EVERY, holder));
        let answer = self.library.bound(&self.frame, make, sample);
        tally.same(self.case, &format!("what holds sample {sample} of {n} of make {make}"), holder, answer);
        let clash = bounds::clash(&self.job, &self.path, sample);
        tally.happened(bounds::event(bounds::CLASHES, clash.bound));
        tally.same(self.case, &format!("what clashes at sample {sample} of {n}"), clash, self.library.clash(&self.frame, sample));
        let make = random.up_to(255) as u8;
        tally.same(self.case, "what holds in a damaged frame", 0, self.library.bound(&[], make, sample));
        tally.same(self.case, "what clashes in a damaged frame", Clash::default(), self.library.clash(&[], sample));
    }

    /// Calls under the limits of another frame, which has more samples or fewer or as many: what it lacks bounds nothing.
    fn other_frame(&mut self, tally: &mut Tally, random: &Random, budget: u64) {
        let layout = frames::short_layout(random);
        let frame = frames::frame(random, layout);
        let path = Path::read(&frame).expect("a good frame");
        let prepared = prepared::prepare(tally, self.case, random, &frame, &path);
        let path = path.for_samples(self.layout.samples);
        let own = (
            std::mem::replace(&mut self.frame, frame),
            std::mem::replace(&mut self.path, path),
            std::mem::replace(&mut self.prepared, prepared),
        );
        match random.up_to(2) {
            0 => self.advance(tally, random, budget),
            _ => self.run(tally, random, budget),
        }
        (self.frame, self.path, self.prepared) = own;
    }

    /// The setpoints of the job as it is: written, or refused with nothing changed.
    fn setpoints(&mut self, tally: &mut Tally, random: &Random) {
        let count = 7 + 3 * self.layout.samples;
        let room = match random.up_to(5) {
            0 => random.index(count),
            1 => count - 1,
            2 | 3 => count,
            _ => count + 1 + random.index(20),
        };
        let (mut expected, mut out) = (vec![BEFORE; room], vec![BEFORE; room]);
        let written = self.job.clone().release().map_err(|(number, _)| number).and_then(|table| table.write(&mut expected));
        let ours = written.map_or_else(|number| (0, ours::bare(number)), |count| (count as u64, ours::NO_REFUSAL));
        tally.reach(ours.1.number);
        let answer = self.library.setpoints(&mut out);
        tally.same(self.case, &format!("the answer to setpoints into {room} bytes"), ours, answer);
        tally.same(self.case, "the memory of setpoints", expected, out);
        if written.is_ok() {
            self.expected.job = Default::default();
        }
        self.compare(tally, "setpoints");
        if written.is_ok() {
            // the job is spent: it takes a new one to go on
            self.make_again(tally);
        }
    }

    fn make_again(&mut self, tally: &mut Tally) {
        let words = self.library.make(&self.frame);
        tally.same(self.case, "the refusal of another making", ours::NO_REFUSAL, words);
        self.job = Job::make(&self.path);
        self.expect();
        self.compare(tally, "another making");
    }
}

/// Cells that a caller might lend: zero at first, or left by a job before.
fn lent(random: &Random, classes: usize, speeds: usize) -> Work {
    let mut work =
        Work { classes: vec![ClassCell::default(); classes], speeds: vec![SpeedCell::default(); speeds], ..Work::default() };
    if random.percent(50) {
        for cell in &mut work.classes {
            *cell = ClassCell { value: random.up_to(7) as u8, cap: random.up_to(7) as u8, floor: random.up_to(7) as u8 };
        }
        for cell in &mut work.speeds {
            let [value, cap, floor] = std::array::from_fn(|_| random.bits() >> 1);
            *cell = SpeedCell { value, cap, floor };
        }
    }
    work
}

fn room(random: &Random, n: usize) -> usize {
    match random.up_to(19) {
        0 => n - 1,
        1 => random.index(n),
        2..=4 => n + 1 + random.index(4),
        _ => n,
    }
}

/// A making in memories of any length, which may be refused.
fn make(tally: &mut Tally, case: Case, random: &Random, layout: Layout) -> Option<Both> {
    let frame = frames::frame(random, layout);
    let path = Path::read(&frame).expect("a good frame");
    let (classes, speeds) = (room(random, layout.samples), room(random, layout.samples));
    let mut library = lent(random, classes, speeds);
    let mut expected = library.clone();
    let made = Job::make_in(&path, classes, speeds);
    let refusal = ours::refusal(&made);
    tally.reach(refusal.number);
    let what = format!("the refusal of a making in {classes} and {speeds} cells of {}", layout.samples);
    tally.same(case, &what, refusal, library.make(&frame));
    let Ok(job) = made else {
        tally.same(case, "the job and the cells of a refused making", expected, library);
        return None;
    };
    events::of_making(&job).into_iter().for_each(|event| tally.happened(event));
    ours::put(&job, &mut expected);
    let prepared = prepared::prepare(tally, case, random, &frame, &path);
    let mut both = Both { case, frame, layout, path, prepared, job, library, expected };
    both.compare(tally, "a making");
    both.sufficient(tally);
    Some(both)
}

fn sequence(tally: &mut Tally, case: Case, layout: Layout, chunks: usize, budget: u64) {
    let random = &case.random();
    random.next();
    let Some(mut both) = make(tally, case, random, layout) else { return };
    tally.sequences += 1;
    for _ in 0..chunks {
        if matches!(both.job.state, State::Impossible { .. }) && random.percent(60) {
            both.make_again(tally);
        }
        match random.up_to(19) {
            0 => both.refused(tally, random),
            1 => both.setpoints(tally, random),
            2 => both.sufficient(tally),
            3 => wrong::calls(tally, case, random, &both.library, (&both.frame, &both.prepared)),
            4 => both.other_frame(tally, random, budget),
            5..=9 => both.advance(tally, random, budget),
            _ => both.run(tally, random, budget),
        }
        if random.percent(40) {
            both.bounds(tally, random);
        }
    }
    if calls::enough(&both.job, &both.path, budget).is_some() {
        both.advance_by(tally, u64::MAX);
    }
    both.bounds(tally, random);
    both.setpoints(tally, random);
}

pub fn short(tally: &mut Tally, case: Case) {
    const BUDGET: u64 = 60_000;
    let random = &case.random();
    let layout = frames::short_layout(random);
    let chunks = 1 + random.index(8);
    sequence(tally, case, layout, chunks, BUDGET);
}

pub fn long(tally: &mut Tally, case: Case) {
    const BUDGET: u64 = 20_000_000;
    const CHUNKS: usize = 5;
    let layout = frames::long_layout(&case.random());
    sequence(tally, case, layout, CHUNKS, BUDGET);
}
