//! The reader: every question to a path frame, in order.

use crate::caps;
use crate::limits::Limits;
use crate::path::{Clause, Gap, Path, Row, Sample};
use crate::refusal::{Layer, Refusal};
use crate::{CLASS_TOP, SPEED_TOP};

pub const HEAD: usize = 15;
pub const SAMPLE: usize = 20;
pub const GAP: usize = 12;
pub const ROW: usize = 24;
/// The bytes before those that the length counts.
pub const BEFORE_LENGTH: usize = 5;
/// The bytes of the head that the length counts.
pub const COUNTED_HEAD: usize = HEAD - BEFORE_LENGTH;
pub const VERSION: u8 = 1;
const SAMPLES_LEAST: usize = 2;
const SAMPLES_MOST: usize = 4096;
const ROWS_MOST: usize = 8192;
const ROW_NUMBER_TOP: i64 = 1 << 24;

/// Where the fields of the head begin.
mod at {
    pub const VERSION: usize = 0;
    pub const LENGTH: usize = 1;
    pub const SAMPLES: usize = 5;
    pub const SPACING: usize = 7;
    pub const LATERAL: usize = 9;
    pub const ROWS: usize = 13;
}

#[inline(always)]
fn two(bytes: &[u8], from: usize) -> u16 {
    u16::from_be_bytes([bytes[from], bytes[from + 1]])
}

#[inline(always)]
fn four(bytes: &[u8], from: usize) -> u32 {
    u32::from_be_bytes([bytes[from], bytes[from + 1], bytes[from + 2], bytes[from + 3]])
}

#[inline(always)]
fn signed(bytes: &[u8], from: usize) -> i32 {
    four(bytes, from) as i32
}

/// A record's layer and the offset of its first byte.
struct Origin {
    layer: Layer,
    start: usize,
}

impl Origin {
    fn ask(&self, yes: bool, number: u32, field: usize) -> Result<(), Refusal> {
        match yes {
            true => Ok(()),
            false => Err(Refusal { layer: self.layer, number, place: (self.start + field) as u64 }),
        }
    }
}

struct Head {
    samples: usize,
    spacing: u16,
    lateral: u32,
    rows: usize,
}

/// The length of a frame from offset 5 on.
pub fn length(samples: usize, rows: usize) -> usize {
    COUNTED_HEAD + SAMPLE * samples + GAP * (samples - 1) + ROW * rows
}

fn read_head(frame: &[u8]) -> Result<Head, Refusal> {
    let origin = Origin { layer: Layer::Frame, start: 0 };
    origin.ask(frame.len() >= BEFORE_LENGTH, 10, 0)?;
    origin.ask(frame[at::VERSION] == VERSION, 11, at::VERSION)?;
    let counted = four(frame, at::LENGTH) as usize;
    origin.ask(counted == frame.len() - BEFORE_LENGTH, 12, at::LENGTH)?;
    origin.ask(counted >= COUNTED_HEAD, 13, at::LENGTH)?;
    let samples = usize::from(two(frame, at::SAMPLES));
    origin.ask((SAMPLES_LEAST..=SAMPLES_MOST).contains(&samples), 14, at::SAMPLES)?;
    let spacing = two(frame, at::SPACING);
    origin.ask(spacing >= 1, 15, at::SPACING)?;
    let lateral = four(frame, at::LATERAL);
    origin.ask(lateral <= SPEED_TOP, 16, at::LATERAL)?;
    let rows = usize::from(two(frame, at::ROWS));
    origin.ask(rows <= ROWS_MOST, 17, at::ROWS)?;
    origin.ask(counted == length(samples, rows), 18, at::LENGTH)?;
    Ok(Head { samples, spacing, lateral, rows })
}

/// Which of a clause's two numbers does not fit the kind, if one does not: its offset in the sample.
const FIRST: usize = 4;
const SECOND: usize = 8;

/// The clause of a kind that is at most 3, or the offset of the number that does not fit it.
pub fn clause(kind: u8, first: u32, second: u32) -> Result<Clause, usize> {
    let fits = |yes: bool, field: usize| if yes { Ok(()) } else { Err(field) };
    match kind {
        0 => {
            fits(first == 0, FIRST)?;
            fits(second == 0, SECOND)?;
            Ok(Clause::Free)
        }
        1 => {
            fits(caps::is_top_speed(first), FIRST)?;
            fits(second == 0, SECOND)?;
            Ok(Clause::Straight { top: first })
        }
        2 => {
            fits(caps::is_top_speed(first), FIRST)?;
            fits(caps::is_finite(second), SECOND)?;
            Ok(Clause::Bend { top: first, curvature: second })
        }
        _ => {
            fits(first <= SPEED_TOP, FIRST)?;
            fits(second == 0, SECOND)?;
            Ok(Clause::Fixed { square: first })
        }
    }
}

fn read_sample(bytes: &[u8; SAMPLE], start: usize, at_an_end: bool, lateral: u32) -> Result<Sample, Refusal> {
    let origin = Origin { layer: Layer::Sample, start };
    let (kind, class_cap, class_floor) = (bytes[0], bytes[1], bytes[2]);
    origin.ask(kind <= 3, 20, 0)?;
    origin.ask(bytes[3] == 0, 21, 3)?;
    origin.ask(class_cap <= CLASS_TOP, 22, 1)?;
    origin.ask(class_floor <= CLASS_TOP, 22, 2)?;
    let clause = match clause(kind, four(bytes, FIRST), four(bytes, SECOND)) {
        Ok(clause) => clause,
        Err(field) => return origin.ask(false, 23, field).map(|()| unreachable!()),
    };
    let speed_floor = four(bytes, 12);
    origin.ask(speed_floor <= SPEED_TOP, 24, 12)?;
    let offset = signed(bytes, 16);
    origin.ask(!at_an_end || offset == 0, 25, 16)?;
    Ok(Sample { clause, class_cap, class_floor, speed_cap: caps::cap(clause, lateral), speed_floor, offset })
}

fn read_gap(bytes: &[u8; GAP], start: usize) -> Result<Gap, Refusal> {
    let origin = Origin { layer: Layer::Gap, start };
    let (rise, fall, up, down) = (bytes[0], bytes[1], four(bytes, 4), four(bytes, 8));
    origin.ask(rise <= CLASS_TOP, 30, 0)?;
    origin.ask(fall <= CLASS_TOP, 30, 1)?;
    origin.ask(two(bytes, 2) == 0, 31, 2)?;
    origin.ask(up <= SPEED_TOP, 32, 4)?;
    origin.ask(down <= SPEED_TOP, 32, 8)?;
    Ok(Gap { rise, fall, up, down })
}

fn read_row(bytes: &[u8; ROW], start: usize, samples: usize, gap_before: u16, spacing: u16) -> Result<Row, Refusal> {
    let origin = Origin { layer: Layer::Torque, start };
    let gap = two(bytes, 0);
    origin.ask(usize::from(gap) + 2 <= samples, 40, 0)?;
    origin.ask(two(bytes, 2) == 0, 41, 2)?;
    origin.ask(gap >= gap_before, 42, 0)?;
    let numbers: [i32; 5] = std::array::from_fn(|k| signed(bytes, 4 + 4 * k));
    let is_within = |number: i64| (-ROW_NUMBER_TOP..=ROW_NUMBER_TOP).contains(&number);
    for (k, &number) in numbers.iter().enumerate() {
        origin.ask(is_within(i64::from(number)), 43, 4 + 4 * k)?;
    }
    let [d, c, g, lo, hi] = numbers;
    origin.ask(lo <= hi, 44, 16)?;
    origin.ask(d != 0, 45, 4)?;
    let row = Row { gap, d, c, g, lo, hi };
    let e = row.before_factor(spacing);
    origin.ask(e != 0 && (e < 0) == (d < 0) && is_within(e), 46, 4)?;
    Ok(row)
}

impl Row {
    /// e = d − 2hc: what the squared speed before the gap is taken times, with its sign turned.
    pub fn before_factor(&self, spacing: u16) -> i64 {
        i64::from(self.d) - 2 * i64::from(spacing) * i64::from(self.c)
    }
}

impl Path {
    /// Takes a path frame apart, or says which question refuses it first.
    pub fn read(frame: &[u8]) -> Result<Path, Refusal> {
        let head = read_head(frame)?;
        let last = head.samples - 1;
        let samples_end = HEAD + SAMPLE * head.samples;
        let gaps_end = samples_end + GAP * last;
        let mut samples = Vec::with_capacity(head.samples);
        for (i, bytes) in frame[HEAD..samples_end].as_chunks().0.iter().enumerate() {
            samples.push(read_sample(bytes, HEAD + SAMPLE * i, i == 0 || i == last, head.lateral)?);
        }
        let mut gaps = Vec::with_capacity(last);
        for (i, bytes) in frame[samples_end..gaps_end].as_chunks().0.iter().enumerate() {
            gaps.push(read_gap(bytes, samples_end + GAP * i)?);
        }
        let mut rows: Vec<Row> = Vec::with_capacity(head.rows);
        for (k, bytes) in frame[gaps_end..].as_chunks().0.iter().enumerate() {
            let gap_before = rows.last().map_or(0, |row| row.gap);
            rows.push(read_row(bytes, gaps_end + ROW * k, head.samples, gap_before, head.spacing)?);
        }
        let limits = Limits::new(head.samples, head.spacing, &samples, &gaps, &rows);
        Ok(Path { spacing: head.spacing, lateral: head.lateral, samples, gaps, rows, limits })
    }

    /// This path with limits for a profile of another count of samples.
    pub fn for_samples(mut self, count: usize) -> Path {
        self.limits = Limits::new(count, self.spacing, &self.samples, &self.gaps, &self.rows);
        self
    }
}
