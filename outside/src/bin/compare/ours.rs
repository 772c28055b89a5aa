//! This planner's answers in the words of the C boundary.

use crate::linked::{Answer, Call, ClassCell, Job as Words, Refusal, SpeedCell, Work};
use outside::job::{Job, Make, State};
use outside::{Layer, Path};

const NO_LAYER: u32 = 5;
pub const NO_REFUSAL: Refusal = Refusal { layer: NO_LAYER, number: 0, place: 0 };
pub const UNKNOWN_CALL: u32 = 254;
pub const NO_JOB: u32 = 255;
pub const CLASS_MEMORY: u32 = 50;
pub const SPEED_MEMORY: u32 = 51;
/// What an answer holds before a call.
pub const UNWRITTEN: Answer = Answer { evaluations: 77, lowerings: 77, found: 77, number: 7777, class: 77, speed: 77, state: 77 };
pub const ADVANCE: u8 = 0;
pub const CUT: u8 = 1;
pub const LIFT: u8 = 2;
pub const LOOK: u8 = 3;

pub fn refusal<T>(answer: &Result<T, outside::Refusal>) -> Refusal {
    match answer {
        Ok(_) => NO_REFUSAL,
        Err(refusal) => Refusal { layer: layer(refusal.layer), number: refusal.number, place: refusal.place },
    }
}

/// A refusal that has no layer and no place.
pub fn bare(number: u32) -> Refusal {
    Refusal { layer: NO_LAYER, number, place: 0 }
}

fn layer(layer: Layer) -> u32 {
    match layer {
        Layer::Frame => 0,
        Layer::Sample => 1,
        Layer::Gap => 2,
        Layer::Torque => 3,
        Layer::Memory => 4,
    }
}

fn state(state: State) -> (u8, u64) {
    match state {
        State::Classes => (0, 0),
        State::Speeds => (1, 0),
        State::Settled => (2, 0),
        State::Impossible { found } => (3, found as u64),
    }
}

pub fn job(job: &Job) -> Words {
    let (state, found) = state(job.state);
    Words {
        samples: job.samples() as u64,
        found,
        visited: job.sweep.visited as u64,
        state,
        falling: job.sweep.falling.into(),
        marked: job.sweep.marked.into(),
        spare: 0,
    }
}

/// Puts a job and its cells where the library would have them, and leaves the cells behind the last sample.
pub fn put(job: &Job, work: &mut Work) {
    work.job = self::job(job);
    let (classes, speeds) = (&job.classes, &job.speeds);
    for (i, cell) in work.classes.iter_mut().take(job.samples()).enumerate() {
        *cell = ClassCell { value: classes.values()[i], cap: classes.caps[i], floor: classes.floors[i] };
    }
    for (i, cell) in work.speeds.iter_mut().take(job.samples()).enumerate() {
        *cell = SpeedCell { value: speeds.values()[i], cap: speeds.caps[i], floor: speeds.floors[i] };
    }
}

/// Makes a call on a job.
pub fn call(job: &mut Job, path: &Path, call: Call) -> Answer {
    let make = if call.make == 0 { Make::Classes } else { Make::Speeds };
    let mut answer = Answer::default();
    let done = match call.kind {
        _ if call.make > 1 => Err(UNKNOWN_CALL),
        ADVANCE => job.advance(path, call.value).map(|done| {
            answer.evaluations = done.evaluations;
            answer.lowerings = done.lowerings;
        }),
        CUT => job.cut(make, call.sample, call.value),
        LIFT => job.lift(make, call.sample, call.value),
        LOOK => job.look(call.sample).map(|seen| {
            answer.class = seen.class.into();
            answer.speed = seen.speed;
        }),
        _ => Err(UNKNOWN_CALL),
    };
    answer.number = done.err().unwrap_or(0);
    let (state, found) = state(job.state);
    answer.state = state.into();
    answer.found = found;
    answer
}
