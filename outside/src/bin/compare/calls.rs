//! Random calls on a job.

use crate::linked::Call;
use crate::ours::{ADVANCE, CUT, LIFT, LOOK};
use crate::random::Random;
use outside::Path;
use outside::job::{Job, Make, State};

/// A sample's number, within the path most times.
pub fn sample(random: &Random, n: usize) -> u64 {
    let within = random.index(n) as u64;
    match random.up_to(11) {
        0 => n as u64,
        1 => random.pick(&[u64::MAX, n as u64 + 1, 1 << 32 | within, 1 << 16 | within, 1 << 63, random.next()]),
        2 => random.pick(&[0, n as u64 - 1]),
        _ => within,
    }
}

/// A value for a cut or a lift at a sample, near what is there now most times.
fn value(random: &Random, job: &Job, make: Make, sample: u64) -> u64 {
    let i = sample as usize % job.samples();
    let (value, cap, floor, top) = match make {
        Make::Classes => {
            (u64::from(job.classes.values()[i]), u64::from(job.classes.caps[i]), u64::from(job.classes.floors[i]), 7)
        }
        Make::Speeds => {
            (u64::from(job.speeds.values()[i]), u64::from(job.speeds.caps[i]), u64::from(job.speeds.floors[i]), 0x7fff_ffff)
        }
    };
    match random.up_to(13) {
        0 => random.pick(&[top, top + 1, u64::MAX, 1 << 32 | value, 1 << 31 | value, 256 | value, random.next()]),
        1 => 0,
        2 => value,
        3 => value.saturating_sub(1),
        4 => value + 1,
        5 => floor,
        6 => floor.saturating_sub(1),
        7 => floor + 1,
        8 => random.pick(&[cap, cap.saturating_sub(1), cap + 1]),
        9 => random.of_any_size(top),
        10 => random.up_to(2 * value),
        _ => floor + random.up_to(value.saturating_sub(floor)),
    }
}

/// How many evaluations end the job's work, if at most `budget` do.
pub fn enough(job: &Job, path: &Path, budget: u64) -> Option<u64> {
    let mut copy = job.clone();
    let done = copy.advance(path, budget).map_or(0, |done| done.evaluations);
    matches!(copy.state, State::Settled | State::Impossible { .. }).then_some(done)
}

/// An advance's allowance: one that would not end within the budget is taken smaller.
fn allowance(random: &Random, job: &Job, path: &Path, budget: u64) -> u64 {
    let n = job.samples() as u64;
    let small = match random.up_to(7) {
        0 => 0,
        1 => 1,
        2 => n,
        3 => n - 1,
        4 | 5 => random.up_to(3 * n),
        _ => random.up_to(n),
    };
    if random.percent(75) {
        return small;
    }
    match enough(job, path, budget) {
        None => random.pick(&[small, budget]),
        Some(enough) => {
            let sufficient = job.sufficient_allowance();
            random.pick(&[u64::MAX, u64::MAX - 1, 1 << 32, sufficient, enough, enough + 1, enough.saturating_sub(1)]).max(small)
        }
    }
}

/// A cut below a floor that leaves a speed at the top.
fn cut_below_the_top(job: &Job) -> Option<Call> {
    let speeds = job.speeds.values().iter().zip(&job.speeds.floors);
    let sample = speeds.into_iter().position(|(&value, &floor)| value == outside::SPEED_TOP && floor > 0)?;
    Some(Call { sample: sample as u64, value: u64::from(job.speeds.floors[sample]) - 1, kind: CUT, make: 1 })
}

/// The next call: one in forty is of a kind or a make that there isn't.
pub fn call(random: &Random, job: &Job, path: &Path, budget: u64) -> Call {
    if random.percent(2)
        && let Some(call) = cut_below_the_top(job)
    {
        return call;
    }
    let sample = sample(random, job.samples());
    let make = random.up_to(1) as u8;
    let kind = random.pick(&[ADVANCE, ADVANCE, ADVANCE, CUT, CUT, CUT, LIFT, LOOK]);
    let value = match (kind, make) {
        (ADVANCE, _) => allowance(random, job, path, budget),
        (_, 0) => value(random, job, Make::Classes, sample),
        _ => value(random, job, Make::Speeds, sample),
    };
    // a lift above the value ends the job: such are taken less often
    let is_gentle = kind != LIFT || random.percent(30);
    let value = if is_gentle { value } else { value.min(lowest_value(job, make, sample)) };
    let mut call = Call { sample, value, kind, make };
    if kind == ADVANCE && random.percent(50) {
        (call.sample, call.make) = (0, 0);
    }
    match random.up_to(79) {
        0 => call.kind = random.pick(&[4, 5, 128, 255]),
        1 => call.make = random.pick(&[2, 3, 128, 255]),
        _ => {}
    }
    call
}

fn lowest_value(job: &Job, make: u8, sample: u64) -> u64 {
    let i = sample as usize % job.samples();
    match make {
        0 => job.classes.values()[i].into(),
        _ => job.speeds.values()[i].into(),
    }
}
