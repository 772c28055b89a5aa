//! What the limits need of a path, worked out once: steps and offsets by sample, rows by gap with their constants.
//!
//! A neighbour that is missing is a sample of the top behind either end, with steps and an offset that bound nothing.

use crate::path::{Gap, Row, Sample};
use crate::{CLASS_TOP, SPEED_TOP};

/// The most that a class may be above its neighbours.
#[derive(Clone, Copy, Debug)]
pub struct ClassSteps {
    pub above_before: u8,
    pub above_after: u8,
}

/// The most that a squared speed may be above its neighbours, and the offset of its average.
#[derive(Clone, Copy, Debug)]
pub struct SpeedSteps {
    pub above_before: u32,
    pub above_after: u32,
    pub offset: i64,
}

/// One side of a row, of a sample and one of its neighbours: `factor` × sample ≤ `neighbour_factor` × neighbour + `constant`.
#[derive(Clone, Copy, Debug)]
pub struct RowSide {
    pub factor: u32,
    pub neighbour_factor: u32,
    pub constant: i64,
    /// `BEFORE` or `AFTER`: where it stands around the sample.
    pub neighbour: usize,
}

#[derive(Clone, Debug)]
pub struct Limits {
    pub class_steps: Vec<ClassSteps>,
    pub speed_steps: Vec<SpeedSteps>,
    /// Those of sample i are `row_sides[first_sides[i]..first_sides[i + 1]]`, in the order of the rows.
    pub row_sides: Vec<RowSide>,
    pub first_sides: Vec<u32>,
}

/// The neighbours' places in a row of three around a sample.
pub const BEFORE: usize = 0;
pub const AFTER: usize = 2;

/// An offset that bounds nothing beside two samples that are not below zero.
const NO_OFFSET: i64 = 2 * SPEED_TOP as i64;

impl RowSide {
    /// What a row says of the sample before its gap, and what of the sample after it.
    fn both(row: &Row, spacing: u16) -> [RowSide; 2] {
        let twice = 2 * i64::from(spacing);
        let upper = twice * (i64::from(row.hi) - i64::from(row.g));
        let lower = twice * (i64::from(row.g) - i64::from(row.lo));
        let (of_before, of_after) = if row.d > 0 { (lower, upper) } else { (upper, lower) };
        let (d, e) = (row.d.unsigned_abs(), row.before_factor(spacing).unsigned_abs() as u32);
        [
            RowSide { factor: e, neighbour_factor: d, constant: of_before, neighbour: AFTER },
            RowSide { factor: d, neighbour_factor: e, constant: of_after, neighbour: BEFORE },
        ]
    }
}

impl Limits {
    /// The limits of a profile of `count` samples. Mostly that is the path's own count; of a path that is shorter or longer
    /// than the profile what is missing bounds nothing.
    pub fn new(count: usize, spacing: u16, samples: &[Sample], gaps: &[Gap], rows: &[Row]) -> Limits {
        let last = count - 1;
        let gap_before = |i: usize| i.checked_sub(1).and_then(|i| gaps.get(i));
        let gap_after = |i: usize| gaps.get(i).filter(|_| i < last);
        let offset = |i: usize| samples.get(i).filter(|_| i > 0 && i < last);
        let class_steps = (0..=last)
            .map(|i| ClassSteps {
                above_before: gap_before(i).map_or(CLASS_TOP, |gap| gap.rise),
                above_after: gap_after(i).map_or(CLASS_TOP, |gap| gap.fall),
            })
            .collect();
        let speed_steps = (0..=last)
            .map(|i| SpeedSteps {
                above_before: gap_before(i).map_or(SPEED_TOP, |gap| gap.up),
                above_after: gap_after(i).map_or(SPEED_TOP, |gap| gap.down),
                offset: offset(i).map_or(NO_OFFSET, |sample| sample.offset.into()),
            })
            .collect();
        let (row_sides, first_sides) = row_sides(spacing, count, rows);
        Limits { class_steps, speed_steps, row_sides, first_sides }
    }
}

/// The sides of rows by sample: those of the rows at the gap before it, then those of the rows at the gap after it.
fn row_sides(spacing: u16, samples: usize, rows: &[Row]) -> (Vec<RowSide>, Vec<u32>) {
    let mut sides = Vec::with_capacity(2 * rows.len());
    let mut first = Vec::with_capacity(samples + 1);
    let (mut before, mut after) = (0, 0);
    for i in 0..samples {
        first.push(sides.len() as u32);
        sides.extend(rows[before..after].iter().map(|row| RowSide::both(row, spacing)[1]));
        before = after;
        while i + 1 < samples && rows.get(after).is_some_and(|row| usize::from(row.gap) == i) {
            after += 1;
        }
        sides.extend(rows[before..after].iter().map(|row| RowSide::both(row, spacing)[0]));
    }
    first.push(sides.len() as u32);
    (sides, first)
}

/// The least of a sample's value and what the ramp and the average allow it; below zero where nothing fits.
#[inline(always)]
pub fn least_by_steps(value: i64, before: i64, after: i64, steps: &SpeedSteps) -> i64 {
    value
        .min(before + i64::from(steps.above_before))
        .min(after + i64::from(steps.above_after))
        .min((before + after + steps.offset) >> 1)
}

/// The least of a sample's value and what one side of a row allows it; below zero where nothing fits.
#[inline(always)]
pub fn least_by_row(value: i64, side: &RowSide, neighbour: i64) -> i64 {
    let right = i64::from(side.neighbour_factor) * neighbour + side.constant;
    match i64::from(side.factor) * value <= right {
        true => value,
        false if right < 0 => -1,
        false => right / i64::from(side.factor),
    }
}
