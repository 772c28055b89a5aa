//! Frames prepared in memory of every length, against what this planner's own limits say.

use crate::linked::{Prepared, RowBounds, SampleBounds};
use crate::random::Random;
use crate::tally::{Case, Tally};
use outside::Path;
use outside::limits::{AFTER, BEFORE};

pub const EVERY: [&str; 2] = ["a frame prepared", "a preparation refused"];

/// What the memory holds before.
const SAMPLE_BEFORE: SampleBounds = SampleBounds { up: 7777, down: 7777, offset: -7777, first_row: 7777 };
const ROW_BEFORE: RowBounds = RowBounds { before: 7777, after: 7777, left: -7777, right: -7777 };

/// What is kept of each sample.
fn sample_bounds(path: &Path) -> Vec<SampleBounds> {
    let steps = &path.limits.speed_steps;
    let last = steps.len() - 1;
    let bounds = |i: usize| SampleBounds {
        up: if i == 0 { 0 } else { steps[i].above_before },
        down: if i == last { 0 } else { steps[i].above_after },
        offset: path.samples[i].offset,
        first_row: path.rows.partition_point(|row| usize::from(row.gap) < i) as u32,
    };
    (0..=last).map(bounds).collect()
}

/// What is kept of each row: its two sides, which stand in the order of the rows.
fn row_bounds(path: &Path) -> Vec<RowBounds> {
    let sides = |neighbour| path.limits.row_sides.iter().filter(move |side| side.neighbour == neighbour);
    let both = sides(AFTER).zip(sides(BEFORE));
    let bounds = both.map(|(of_before, of_after)| RowBounds {
        before: of_before.factor,
        after: of_after.factor,
        left: of_before.constant,
        right: of_after.constant,
    });
    bounds.collect()
}

fn room(random: &Random, count: usize) -> usize {
    match random.up_to(11) {
        0 => count.saturating_sub(1),
        1 => random.index(count + 1),
        2..=4 => count + 1 + random.index(4),
        _ => count,
    }
}

/// Prepares a frame in memory of any length, until one has room for it.
pub fn prepare(tally: &mut Tally, case: Case, random: &Random, frame: &[u8], path: &Path) -> Prepared {
    let (samples, rows) = (sample_bounds(path), row_bounds(path));
    loop {
        let (p, q) = (room(random, samples.len()), room(random, rows.len()));
        let mut library = Prepared { samples: vec![SAMPLE_BEFORE; p], rows: vec![ROW_BEFORE; q] };
        let mut expected = library.clone();
        let has_room = p >= samples.len() && q >= rows.len();
        if has_room {
            expected.samples[..samples.len()].copy_from_slice(&samples);
            expected.rows[..rows.len()].copy_from_slice(&rows);
        }
        tally.happened(EVERY[usize::from(!has_room)]);
        let what = format!("preparing {} samples and {} rows in {p} and {q} elements", samples.len(), rows.len());
        tally.same(case, &format!("the answer to {what}"), u32::from(has_room), library.prepare(frame));
        tally.same(case, &format!("the memory after {what}"), &expected, &library);
        if has_room {
            return library;
        }
    }
}
