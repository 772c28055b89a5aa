//! The job: made, advanced, its caps cut and its floors lifted, looked at.

use std::cell::Cell;
use std::ops::Range;

use crate::limits::{ClassSteps, Limits, RowSide, SpeedSteps, least_by_row, least_by_steps};
use crate::path::Path;
use crate::refusal::{Layer, Refusal};
use crate::{CLASS_TOP, GRANTED, SPEED_TOP};

pub const NO_SAMPLE: u32 = 60;
pub const ABOVE_TOP: u32 = 61;
pub const IS_IMPOSSIBLE: u32 = 62;
const CLASS_MEMORY: u32 = 50;
const SPEED_MEMORY: u32 = 51;

#[derive(Clone, Copy, PartialEq, Eq, Debug)]
pub enum State {
    Classes,
    Speeds,
    Settled,
    /// Found at this sample.
    Impossible {
        found: usize,
    },
}

/// Which of the two sheets a cut or a lift is about.
#[derive(Clone, Copy, PartialEq, Eq, Debug)]
pub enum Make {
    Classes,
    Speeds,
}

/// One sheet: the value, cap and floor of every sample. The values have one of the top behind either end.
#[derive(Clone, PartialEq, Eq, Debug)]
pub struct Sheet<T> {
    padded: Vec<T>,
    pub caps: Vec<T>,
    pub floors: Vec<T>,
}

#[derive(Clone, Copy, PartialEq, Eq, Debug, Default)]
pub struct Sweep {
    pub visited: usize,
    /// Back, from the last sample on.
    pub falling: bool,
    /// A sample was lowered since the sweep began, so it is not the last.
    pub marked: bool,
}

#[derive(Clone, PartialEq, Eq, Debug)]
pub struct Job {
    pub state: State,
    pub sweep: Sweep,
    pub classes: Sheet<u8>,
    pub speeds: Sheet<u32>,
}

/// What an advance did.
#[derive(Clone, Copy, PartialEq, Eq, Debug, Default)]
pub struct Advanced {
    pub evaluations: u64,
    pub lowerings: u64,
}

/// What a look shows.
#[derive(Clone, Copy, PartialEq, Eq, Debug)]
pub struct Seen {
    pub class: u8,
    pub speed: u32,
}

impl<T: Copy + Ord> Sheet<T> {
    fn new(top: T, caps: Vec<T>, floors: Vec<T>) -> Sheet<T> {
        let mut padded = Vec::with_capacity(caps.len() + 2);
        padded.push(top);
        padded.extend_from_slice(&caps);
        padded.push(top);
        Sheet { padded, caps, floors }
    }

    pub fn values(&self) -> &[T] {
        &self.padded[1..=self.caps.len()]
    }

    fn value(&self, i: usize) -> T {
        self.padded[i + 1]
    }

    fn set_value(&mut self, i: usize, value: T) {
        self.padded[i + 1] = value;
    }

    fn first_floor_above_cap(&self) -> Option<usize> {
        self.caps.iter().zip(&self.floors).position(|(cap, floor)| floor > cap)
    }
}

/// What some visits of a sweep did; the last of them found the job impossible where `is_stopped`.
#[derive(Clone, Copy, Default)]
struct Visits {
    made: usize,
    lowerings: u64,
    is_stopped: bool,
}

/// Visits samples in order, each with its neighbours' values around its own, what bounds it, and its floor: `allow` is the
/// least of a sample's value and what its limit allows it.
#[inline(always)]
fn visit<'a, T, B>(
    samples: impl Iterator<Item = ((&'a [Cell<T>; 3], B), &'a T)>,
    allow: impl Fn(&'a [Cell<T>; 3], B) -> i64,
    narrow: impl Fn(i64) -> T,
) -> Visits
where
    T: Copy + Into<i64> + 'a,
{
    let mut visits = Visits::default();
    for ((around, bounds), &floor) in samples {
        visits.made += 1;
        let allowed = allow(around, bounds);
        if allowed < around[1].get().into() {
            if allowed < floor.into() {
                visits.is_stopped = true;
                break;
            }
            visits.lowerings += 1;
            around[1].set(narrow(allowed));
        }
    }
    visits
}

/// A sweep's next samples, in the order of the samples.
fn next_samples(sweep: Sweep, n: usize, count: usize) -> Range<usize> {
    let first = if sweep.falling { n - sweep.visited - count } else { sweep.visited };
    first..first + count
}

impl<T: Copy + Into<i64>> Sheet<T> {
    /// Visits samples, back where the sweep falls; `bounds` are what bounds each of them.
    #[inline(always)]
    fn visit<'a, B>(
        &'a mut self,
        range: Range<usize>,
        falling: bool,
        bounds: impl DoubleEndedIterator<Item = B> + ExactSizeIterator,
        allow: impl Fn(&'a [Cell<T>; 3], B) -> i64,
        narrow: impl Fn(i64) -> T,
    ) -> Visits {
        let values = Cell::from_mut(&mut self.padded[range.start..range.end + 2]).as_slice_of_cells();
        let samples = values.array_windows().zip(bounds).zip(&self.floors[range]);
        match falling {
            false => visit(samples, allow, narrow),
            true => visit(samples.rev(), allow, narrow),
        }
    }
}

#[inline(always)]
fn class_allowed(around: &[Cell<u8>; 3], steps: &ClassSteps) -> i64 {
    let by_before = around[0].get() + steps.above_before;
    let by_after = around[2].get() + steps.above_after;
    around[1].get().min(by_before).min(by_after).into()
}

#[inline(always)]
fn allowed_by_steps(around: &[Cell<u32>; 3], steps: &SpeedSteps) -> i64 {
    least_by_steps(around[1].get().into(), around[0].get().into(), around[2].get().into(), steps)
}

/// `ends` are the first side of a row at the sample and the first behind them.
#[inline(always)]
fn allowed_with_rows(around: &[Cell<u32>; 3], steps: &SpeedSteps, ends: &[u32; 2], sides: &[RowSide]) -> i64 {
    let mut allowed = allowed_by_steps(around, steps);
    for side in &sides[ends[0] as usize..ends[1] as usize] {
        allowed = least_by_row(allowed, side, around[side.neighbour].get().into());
    }
    allowed
}

fn class_visits(sheet: &mut Sheet<u8>, limits: &Limits, sweep: Sweep, count: usize) -> Visits {
    let range = next_samples(sweep, limits.class_steps.len(), count);
    let steps = limits.class_steps[range.clone()].iter();
    sheet.visit(range, sweep.falling, steps, class_allowed, |allowed| allowed as u8)
}

fn speed_visits(sheet: &mut Sheet<u32>, limits: &Limits, sweep: Sweep, count: usize) -> Visits {
    let range = next_samples(sweep, limits.speed_steps.len(), count);
    let steps = limits.speed_steps[range.clone()].iter();
    if limits.row_sides.is_empty() {
        return sheet.visit(range, sweep.falling, steps, allowed_by_steps, |allowed| allowed as u32);
    }
    let ends = limits.first_sides[range.start..=range.end].array_windows();
    let allow = |around, (steps, ends): (_, &[u32; 2])| allowed_with_rows(around, steps, ends, &limits.row_sides);
    sheet.visit(range, sweep.falling, steps.zip(ends), allow, |allowed| allowed as u32)
}

impl Job {
    /// A new job on a path, its values at the caps.
    pub fn make(path: &Path) -> Job {
        let classes = path.samples.iter().map(|sample| (sample.class_cap, sample.class_floor)).unzip();
        let speeds = path.samples.iter().map(|sample| (sample.speed_cap, sample.speed_floor)).unzip();
        let classes = Sheet::new(CLASS_TOP, classes.0, classes.1);
        let speeds = Sheet::new(SPEED_TOP, speeds.0, speeds.1);
        let found = classes.first_floor_above_cap().or_else(|| speeds.first_floor_above_cap());
        let state = found.map_or(State::Classes, |found| State::Impossible { found });
        Job { state, sweep: Sweep::default(), classes, speeds }
    }

    /// A new job in memories of so many cells, or which of them is too short.
    pub fn make_in(path: &Path, class_cells: usize, speed_cells: usize) -> Result<Job, Refusal> {
        let refused = |number| Err(Refusal { layer: Layer::Memory, number, place: 0 });
        let n = path.samples.len();
        match () {
            _ if class_cells < n => refused(CLASS_MEMORY),
            _ if speed_cells < n => refused(SPEED_MEMORY),
            _ => Ok(Job::make(path)),
        }
    }

    pub fn samples(&self) -> usize {
        self.classes.caps.len()
    }

    fn is_impossible(&self) -> bool {
        matches!(self.state, State::Impossible { .. })
    }

    fn begin(&mut self, state: State) {
        self.state = state;
        self.sweep = Sweep::default();
    }

    /// Works for at most `allowance` evaluations on the path that the job was made of.
    pub fn advance(&mut self, path: &Path, allowance: u64) -> Result<Advanced, u32> {
        if self.is_impossible() {
            return Err(IS_IMPOSSIBLE);
        }
        let n = self.samples();
        let mut done = Advanced::default();
        while done.evaluations < allowance {
            let left = usize::try_from(allowance - done.evaluations).unwrap_or(usize::MAX);
            let count = left.min(n - self.sweep.visited);
            let visits = match self.state {
                State::Classes => class_visits(&mut self.classes, &path.limits, self.sweep, count),
                State::Speeds => speed_visits(&mut self.speeds, &path.limits, self.sweep, count),
                State::Settled | State::Impossible { .. } => break,
            };
            done.evaluations += visits.made as u64;
            done.lowerings += visits.lowerings;
            self.count(visits);
        }
        Ok(done)
    }

    /// Takes visits into the sweep, and acts on its end.
    fn count(&mut self, visits: Visits) {
        let n = self.samples();
        self.sweep.marked |= visits.lowerings > 0;
        if visits.is_stopped {
            self.sweep.visited += visits.made - 1;
            let (visited, falling) = (self.sweep.visited, self.sweep.falling);
            let found = if falling { n - 1 - visited } else { visited };
            self.state = State::Impossible { found };
            return;
        }
        self.sweep.visited += visits.made;
        if self.sweep.visited < n {
            return;
        }
        if self.sweep.marked {
            self.sweep = Sweep { visited: 0, falling: !self.sweep.falling, marked: false };
        } else if self.state == State::Classes {
            self.pour();
        } else {
            self.begin(State::Settled);
        }
    }

    /// Each speed falls to what its class grants, and the speeds are swept next.
    fn pour(&mut self) {
        self.begin(State::Speeds);
        for i in 0..self.samples() {
            let granted = GRANTED[usize::from(self.classes.value(i))];
            if granted < self.speeds.value(i) {
                if granted < self.speeds.floors[i] {
                    self.state = State::Impossible { found: i };
                    return;
                }
                self.speeds.set_value(i, granted);
            }
        }
    }

    fn ask(&self, sample: u64, is_value: bool) -> Result<usize, u32> {
        let sample = self.sample(sample)?;
        match () {
            _ if !is_value => Err(ABOVE_TOP),
            _ if self.is_impossible() => Err(IS_IMPOSSIBLE),
            _ => Ok(sample),
        }
    }

    fn sample(&self, sample: u64) -> Result<usize, u32> {
        usize::try_from(sample).ok().filter(|&sample| sample < self.samples()).ok_or(NO_SAMPLE)
    }

    /// Lowers a cap.
    pub fn cut(&mut self, make: Make, sample: u64, value: u64) -> Result<(), u32> {
        let is_value = value <= top(make);
        let i = self.ask(sample, is_value)?;
        let outcome = match make {
            Make::Classes => self.classes.cut(i, value as u8),
            Make::Speeds => self.speeds.cut(i, value as u32),
        };
        match (outcome, make, self.state) {
            (Cut::AtOrAbove, _, _) => {}
            (Cut::BelowFloor, _, _) => self.state = State::Impossible { found: i },
            (Cut::Below, Make::Classes, State::Classes) | (Cut::Below, Make::Speeds, State::Speeds) => self.sweep.marked = true,
            (Cut::Below, Make::Classes, _) => self.begin(State::Classes),
            (Cut::Below, Make::Speeds, State::Settled) => self.begin(State::Speeds),
            (Cut::Below, Make::Speeds, _) => {}
        }
        Ok(())
    }

    /// Raises a floor.
    pub fn lift(&mut self, make: Make, sample: u64, value: u64) -> Result<(), u32> {
        let is_value = value <= top(make);
        let i = self.ask(sample, is_value)?;
        let is_above = match make {
            Make::Classes => self.classes.lift(i, value as u8),
            Make::Speeds => self.speeds.lift(i, value as u32),
        };
        if is_above {
            self.state = State::Impossible { found: i };
        }
        Ok(())
    }

    /// A sample's class and squared speed.
    pub fn look(&self, sample: u64) -> Result<Seen, u32> {
        let i = self.sample(sample)?;
        Ok(Seen { class: self.classes.value(i), speed: self.speeds.value(i) })
    }

    /// An allowance that ends the work, whatever the limits are.
    pub fn sufficient_allowance(&self) -> u64 {
        let classes: u64 = self.classes.values().iter().map(|&class| u64::from(class)).sum();
        let speeds: u64 = self.speeds.values().iter().map(|&speed| u64::from(speed)).sum();
        self.samples() as u64 * (classes + speeds + 3)
    }
}

fn top(make: Make) -> u64 {
    match make {
        Make::Classes => u64::from(CLASS_TOP),
        Make::Speeds => u64::from(SPEED_TOP),
    }
}

/// How a cut's value lies to the sample's value and floor.
enum Cut {
    AtOrAbove,
    Below,
    BelowFloor,
}

impl<T: Copy + Ord> Sheet<T> {
    fn cut(&mut self, i: usize, cap: T) -> Cut {
        self.caps[i] = self.caps[i].min(cap);
        if cap >= self.value(i) {
            return Cut::AtOrAbove;
        }
        if cap < self.floors[i] {
            return Cut::BelowFloor;
        }
        self.set_value(i, cap);
        Cut::Below
    }

    /// Whether the floor is above the value now.
    fn lift(&mut self, i: usize, floor: T) -> bool {
        self.floors[i] = self.floors[i].max(floor);
        floor > self.value(i)
    }
}
