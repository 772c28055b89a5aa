//! The paths that are measured.

use outside::limits::Limits;
use outside::{CLASS_TOP, Clause, Gap, Path, Row, SPEED_TOP, Sample};

/// What limits a path's speeds beside their caps.
#[derive(Clone, Copy, PartialEq, Eq)]
pub enum Kind {
    Ramps,
    Averages,
    Torque,
}

pub const KINDS: [(Kind, &str); 3] =
    [(Kind::Ramps, "ramps"), (Kind::Averages, "ramps, averages"), (Kind::Torque, "ramps, averages, torque")];

/// Rows at each gap of a path with torque.
pub const ROWS_A_GAP: usize = 2;

/// A generator of numbers that are the same in every run.
struct Numbers(u64);

impl Numbers {
    fn below(&mut self, bound: u32) -> u32 {
        self.0 = self.0.wrapping_mul(6_364_136_223_846_793_005).wrapping_add(1_442_695_040_888_963_407);
        (((self.0 >> 32) * u64::from(bound)) >> 32) as u32
    }

    fn between(&mut self, least: u32, most: u32) -> u32 {
        least + self.below(most - least + 1)
    }
}

const SPACING: u16 = 1;

fn frame(samples: Vec<Sample>, gaps: Vec<Gap>, rows: Vec<Row>) -> Vec<u8> {
    let limits = Limits::new(samples.len(), SPACING, &samples, &gaps, &rows);
    Path { spacing: SPACING, lateral: 0, samples, gaps, rows, limits }.to_frame()
}

fn sample(square: u32, class_cap: u8, offset: i32) -> Sample {
    let clause = Clause::Fixed { square };
    Sample { clause, class_cap, class_floor: 0, speed_cap: square, speed_floor: 0, offset }
}

fn is_end(i: usize, n: usize) -> bool {
    i == 0 || i + 1 == n
}

/// A path with random caps, steps, offsets and rows that takes many sweeps to settle.
pub fn random(kind: Kind, n: usize) -> Vec<u8> {
    let mut numbers = Numbers(n as u64);
    let samples = (0..n)
        .map(|i| {
            let square = if is_end(i, n) { 0 } else { numbers.below(SPEED_TOP) };
            let offset = match kind {
                _ if is_end(i, n) => 0,
                Kind::Ramps => SPEED_TOP as i32,
                Kind::Averages | Kind::Torque => [10, 100, 1000, 4_000_000][numbers.below(4) as usize],
            };
            sample(square, CLASS_TOP - (numbers.below(5) as u8).saturating_sub(2), offset)
        })
        .collect();
    let gaps = (1..n).map(|_| Gap { rise: 1, fall: 1, up: numbers.between(1, 100_000), down: numbers.between(1, 100_000) });
    let gaps = gaps.collect();
    let rows_a_gap = if kind == Kind::Torque { ROWS_A_GAP } else { 0 };
    let rows = (0..(n - 1) * rows_a_gap).map(|k| Row {
        gap: (k / rows_a_gap) as u16,
        d: numbers.between(1, 1000) as i32,
        c: 0,
        g: 0,
        lo: -(numbers.between(1_000_000, 10_000_000) as i32),
        hi: numbers.between(1_000_000, 10_000_000) as i32,
    });
    frame(samples, gaps, rows.collect())
}

/// A flat path with fixed ends: from standstill to standstill, free between.
pub fn flat(n: usize) -> Vec<u8> {
    let samples = (0..n).map(|i| sample(if is_end(i, n) { 0 } else { SPEED_TOP }, CLASS_TOP, end_or(i, n, SPEED_TOP as i32)));
    frame(samples.collect(), vec![Gap { rise: 1, fall: 1, up: 10_000, down: 10_000 }; n - 1], Vec::new())
}

/// A staircase: caps that fall from sample to sample by more than the ramp lets them.
pub fn staircase(n: usize) -> Vec<u8> {
    let samples = (0..n).map(|i| sample((n - i) as u32 * 20_000, CLASS_TOP, end_or(i, n, SPEED_TOP as i32)));
    frame(samples.collect(), vec![Gap { rise: 7, fall: 7, up: 10_000, down: 10_000 }; n - 1], Vec::new())
}

/// The averaging valley of samples/five.path, stretched to n samples.
pub fn valley(n: usize) -> Vec<u8> {
    let samples = (0..n).map(|i| sample(if is_end(i, n) { 0 } else { SPEED_TOP }, CLASS_TOP, end_or(i, n, 4000)));
    frame(samples.collect(), vec![Gap { rise: 1, fall: 1, up: 10_000, down: 10_000 }; n - 1], Vec::new())
}

/// The same valley with no ramp that holds it up: averages alone bring it down, from the top.
pub fn deep_valley(n: usize) -> Vec<u8> {
    let samples = (0..n).map(|i| sample(if is_end(i, n) { 0 } else { SPEED_TOP }, CLASS_TOP, end_or(i, n, 4000)));
    frame(samples.collect(), vec![Gap { rise: 7, fall: 7, up: SPEED_TOP, down: SPEED_TOP }; n - 1], Vec::new())
}

fn end_or(i: usize, n: usize, offset: i32) -> i32 {
    if is_end(i, n) { 0 } else { offset }
}
