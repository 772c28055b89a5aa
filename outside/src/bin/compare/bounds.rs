//! What holds a value, and what clashes with a floor.

use crate::linked::Clash;
use outside::Path;
use outside::binding::{self, Bound};
use outside::job::{Job, Make};

/// The bounds by their numbers; a torque row k has 6 + k.
pub const EVERY: [&str; 7] = [
    "nothing holds a value",
    "a cap holds",
    "a class holds",
    "the ramp before holds",
    "the ramp after holds",
    "the average holds",
    "a torque row holds",
];
pub const CLASHES: [&str; 7] = [
    "nothing clashes",
    "a cap clashes",
    "a class clashes",
    "the ramp before clashes",
    "the ramp after clashes",
    "the average clashes",
    "a torque row clashes",
];

pub fn event(of: [&'static str; 7], number: u32) -> &'static str {
    of[(number as usize).min(of.len() - 1)]
}

fn number(bound: Bound) -> u32 {
    match bound {
        Bound::Cap => 1,
        Bound::Class => 2,
        Bound::RampBefore => 3,
        Bound::RampAfter => 4,
        Bound::Average => 5,
        Bound::Row(k) => 6 + k as u32,
    }
}

fn index(job: &Job, sample: u64) -> Option<usize> {
    usize::try_from(sample).ok().filter(|&sample| sample < job.samples())
}

pub fn holder(job: &Job, path: &Path, make: u8, sample: u64) -> u32 {
    let make = match make {
        0 => Make::Classes,
        1 => Make::Speeds,
        _ => return 0,
    };
    index(job, sample).and_then(|sample| binding::holder(job, path, make, sample)).map_or(0, number)
}

pub fn clash(job: &Job, path: &Path, sample: u64) -> Clash {
    let clash = index(job, sample).and_then(|sample| binding::clash(job, path, sample));
    clash.map_or(Clash::default(), |clash| Clash {
        most: clash.allowed.most.max(-1),
        make: (clash.make == Make::Speeds).into(),
        bound: number(clash.allowed.bound),
        floor: clash.floor as u32,
        is_there: 1,
    })
}
