//! What holds a sample's value where it is.

use crate::GRANTED;
use crate::job::{Job, Make};
use crate::limits::{RowSide, SpeedSteps};
use crate::path::Path;
use crate::{CLASS_TOP, SPEED_TOP};

#[derive(Clone, Copy, PartialEq, Eq, Debug)]
pub enum Bound {
    Cap,
    /// What the class of a speed's sample grants.
    Class,
    RampBefore,
    RampAfter,
    Average,
    /// The row's place in the frame's order.
    Row(usize),
}

/// What one bound allows a sample: below zero where nothing fits.
#[derive(Clone, Copy, PartialEq, Eq, Debug)]
pub struct Allowed {
    pub bound: Bound,
    pub most: i64,
}

/// The value of the sample before or after, where there is one.
fn neighbour<T: Copy>(values: &[T], sample: usize, is_before: bool) -> Option<T> {
    let i = if is_before { sample.checked_sub(1)? } else { sample + 1 };
    values.get(i).copied()
}

fn class_bounds(job: &Job, path: &Path, sample: usize) -> Vec<Allowed> {
    let (values, steps) = (job.classes.values(), path.limits.class_steps[sample]);
    let raised = |is_before, step: u8| {
        let value = neighbour(values, sample, is_before).unwrap_or(CLASS_TOP);
        i64::from((value + step).min(CLASS_TOP))
    };
    vec![
        Allowed { bound: Bound::Cap, most: job.classes.caps[sample].into() },
        Allowed { bound: Bound::RampBefore, most: raised(true, steps.above_before) },
        Allowed { bound: Bound::RampAfter, most: raised(false, steps.above_after) },
    ]
}

fn average(before: Option<u32>, after: Option<u32>, steps: &SpeedSteps) -> i64 {
    let (Some(before), Some(after)) = (before, after) else { return SPEED_TOP.into() };
    let sum = i64::from(before) + i64::from(after) + steps.offset;
    if sum < 0 { -1 } else { (sum / 2).min(SPEED_TOP.into()) }
}

fn side_allows(side: &RowSide, around: [i64; 3]) -> i64 {
    let right = i64::from(side.neighbour_factor) * around[side.neighbour] + side.constant;
    if right < 0 { -1 } else { (right / i64::from(side.factor)).min(SPEED_TOP.into()) }
}

fn speed_bounds(job: &Job, path: &Path, sample: usize) -> Vec<Allowed> {
    let (values, limits) = (job.speeds.values(), &path.limits);
    let (before, after) = (neighbour(values, sample, true), neighbour(values, sample, false));
    let steps = &limits.speed_steps[sample];
    let raised =
        |value: Option<u32>, step: u32| i64::from(SPEED_TOP).min(i64::from(value.unwrap_or(SPEED_TOP)) + i64::from(step));
    let class = usize::from(job.classes.values()[sample]);
    let mut bounds = vec![
        Allowed { bound: Bound::Cap, most: job.speeds.caps[sample].into() },
        Allowed { bound: Bound::Class, most: GRANTED[class].into() },
        Allowed { bound: Bound::RampBefore, most: raised(before, steps.above_before) },
        Allowed { bound: Bound::RampAfter, most: raised(after, steps.above_after) },
        Allowed { bound: Bound::Average, most: average(before, after, steps) },
    ];
    let around = [before, None, after].map(|value| i64::from(value.unwrap_or(SPEED_TOP)));
    let first_row = path.rows.partition_point(|row| usize::from(row.gap) + 1 < sample);
    let sides = &limits.row_sides[limits.first_sides[sample] as usize..limits.first_sides[sample + 1] as usize];
    // a row at another gap bounds nothing here: it allows the top
    let side = |k: usize| k.checked_sub(first_row).and_then(|k| sides.get(k));
    let allows = |k| side(k).map_or(SPEED_TOP.into(), |side| side_allows(side, around));
    bounds.extend((0..path.rows.len()).map(|k| Allowed { bound: Bound::Row(k), most: allows(k) }));
    bounds
}

/// What bounds a sample, in the order in which a table names it.
pub fn bounds(job: &Job, path: &Path, make: Make, sample: usize) -> Vec<Allowed> {
    match make {
        Make::Classes => class_bounds(job, path, sample),
        Make::Speeds => speed_bounds(job, path, sample),
    }
}

/// The first bound that allows just the sample's value.
pub fn holder(job: &Job, path: &Path, make: Make, sample: usize) -> Option<Bound> {
    let value = match make {
        Make::Classes => i64::from(job.classes.values()[sample]),
        Make::Speeds => i64::from(job.speeds.values()[sample]),
    };
    bounds(job, path, make, sample).into_iter().find(|allowed| allowed.most == value).map(|allowed| allowed.bound)
}

/// A bound below the floor of a sample.
#[derive(Clone, Copy, PartialEq, Eq, Debug)]
pub struct Clash {
    pub make: Make,
    pub allowed: Allowed,
    pub floor: i64,
}

/// The first bound of a sample, of its class and then of its speed, that allows less than the floor.
pub fn clash(job: &Job, path: &Path, sample: usize) -> Option<Clash> {
    let of = |make, floor: i64| {
        let allowed = bounds(job, path, make, sample).into_iter().find(|allowed| allowed.most < floor)?;
        Some(Clash { make, allowed, floor })
    };
    of(Make::Classes, job.classes.floors[sample].into()).or_else(|| of(Make::Speeds, job.speeds.floors[sample].into()))
}
