//! Nanoseconds an evaluation, reading and preparing.

use crate::linked::{self, Prepared, Work};
use crate::paths::{KINDS, Kind, random};
use outside::{Job, Path};
use std::hint::black_box;
use std::time::Instant;

const SIZES: [usize; 4] = [64, 256, 1024, 4096];
const ROUNDS: usize = 15;
/// So many cells at most are worked on in one measured stretch, so that short work is repeated.
const CELLS: usize = 16_384;
const HUGE: u64 = u64::MAX;

pub fn median(mut numbers: Vec<f64>) -> f64 {
    numbers.sort_by(f64::total_cmp);
    numbers[numbers.len() / 2]
}

/// A job made by the library.
pub fn made(frame: &[u8], n: usize) -> Work {
    let mut work = Work { classes: vec![Default::default(); n], speeds: vec![Default::default(); n], ..Default::default() };
    assert_eq!(work.make(frame).number, 0);
    work
}

/// A frame prepared by the library.
pub fn prepared(frame: &[u8], path: &Path) -> Prepared {
    let (samples, rows) = (path.samples.len(), path.rows.len());
    let mut prepared = Prepared { samples: vec![Default::default(); samples], rows: vec![Default::default(); rows] };
    assert_eq!(prepared.prepare(frame), 1);
    prepared
}

/// The nanoseconds that one piece of work took.
fn nanoseconds(work: impl FnOnce()) -> f64 {
    let begun = Instant::now();
    work();
    begun.elapsed().as_nanos() as f64
}

/// All do the same: the same evaluations and lowerings, which it gives, and the same values.
pub fn agree(frame: &[u8], path: &Path, allowance: u64) -> (u64, u64) {
    let n = path.samples.len();
    let (mut work, mut beside) = (made(frame, n), made(frame, n));
    let answer = work.advance(frame, allowance);
    assert_eq!(answer, beside.advance_prepared(frame, &prepared(frame, path), allowance));
    assert!(work == beside);
    let mut job = Job::make(path);
    let done = job.advance(path, allowance).expect("a job that can be worked on");
    assert_eq!((answer.evaluations, answer.lowerings), (done.evaluations, done.lowerings));
    assert!(work.classes.iter().map(|cell| cell.value).eq(job.classes.values().iter().copied()));
    assert!(work.speeds.iter().map(|cell| cell.value).eq(job.speeds.values().iter().copied()));
    (done.evaluations, done.lowerings)
}

/// The nanoseconds that work took on so many new jobs, one after another.
fn on_each<T>(copies: usize, make: impl Fn() -> T, advance: impl Fn(&mut T)) -> f64 {
    let mut jobs: Vec<T> = (0..copies).map(|_| make()).collect();
    nanoseconds(|| jobs.iter_mut().for_each(|job| advance(black_box(job))))
}

/// Nanoseconds of an evaluation, of the library on a prepared frame and in place, and of this planner, in turn: medians, and the
/// medians of both ratios.
fn row(frame: &[u8], path: &Path, evaluations: u64) -> [f64; 5] {
    let n = path.samples.len();
    let prepared = prepared(frame, path);
    let copies = (CELLS / n).max(1);
    let all = evaluations as f64 * copies as f64;
    let mut columns: [Vec<f64>; 5] = Default::default();
    for _ in 0..ROUNDS {
        let on_prepared = on_each(
            copies,
            || made(frame, n),
            |work: &mut Work| {
                assert_eq!(work.advance_prepared(black_box(frame), black_box(&prepared), HUGE).number, 0);
            },
        );
        let in_place = on_each(
            copies,
            || made(frame, n),
            |work: &mut Work| {
                assert_eq!(work.advance(black_box(frame), HUGE).number, 0);
            },
        );
        let outside = on_each(copies, || Job::make(path), |job| assert!(job.advance(black_box(path), HUGE).is_ok()));
        let figures = [on_prepared / all, in_place / all, outside / all, on_prepared / outside, in_place / outside];
        columns.iter_mut().zip(figures).for_each(|(column, figure)| column.push(figure));
    }
    columns.map(median)
}

fn heading() {
    println!("\nEvaluations: nanoseconds each, medians of {ROUNDS} rounds, and the medians of the rounds' ratios to outside");
    println!(
        "{:<24} {:>6} {:>11} {:>9} {:>8} {:>8} {:>8} {:>14} {:>14}",
        "limits", "n", "evaluations", "lowerings", "prepared", "in place", "outside", "ratio prepared", "ratio in place"
    );
}

fn print_row(name: &str, frame: &[u8]) {
    let path = Path::read(frame).expect("a good frame");
    let (evaluations, lowerings) = agree(frame, &path, HUGE);
    let [on_prepared, in_place, outside, ratio_prepared, ratio_in_place] = row(frame, &path, evaluations);
    let n = path.samples.len();
    println!(
        "{name:<24} {n:>6} {evaluations:>11} {lowerings:>9} {on_prepared:>8.2} {in_place:>8.2} {outside:>8.2} \
         {ratio_prepared:>14.2} {ratio_in_place:>14.2}"
    );
}

pub fn evaluations() {
    heading();
    for (kind, name) in KINDS {
        SIZES.iter().for_each(|&n| print_row(name, &random(kind, n)));
    }
}

/// The frames of these files.
pub fn of_files(files: &[String]) {
    heading();
    for file in files {
        let frame = std::fs::read(file).unwrap_or_else(|error| panic!("{file}: {error}"));
        print_row(file.rsplit('/').next().unwrap_or(file), &frame);
    }
}

/// Reading, and preparing beside it: this planner decodes a frame and works out its limits as it reads.
pub fn reading() {
    let frame = random(Kind::Torque, SIZES[3]);
    let path = Path::read(&frame).expect("a good frame");
    let mut memory = prepared(&frame, &path);
    let mut columns: [Vec<f64>; 3] = Default::default();
    for _ in 0..ROUNDS {
        let check = nanoseconds(|| assert_eq!(linked::check(black_box(&frame)).number, 0));
        let prepare = nanoseconds(|| assert_eq!(black_box(&mut memory).prepare(black_box(&frame)), 1));
        let outside = nanoseconds(|| drop(black_box(Path::read(black_box(&frame)))));
        columns.iter_mut().zip([check, prepare, outside]).for_each(|(column, figure)| column.push(figure / 1000.0));
    }
    let [check, prepare, outside] = columns.map(median);
    println!("\nReading {} samples and {} rows ({} bytes), microseconds", path.samples.len(), path.rows.len(), frame.len());
    println!("furqyzet_check {check:.1}");
    println!("furqyzet_prepare {prepare:.1}");
    println!("outside, reading and decoding {outside:.1}");
    println!("ratios: check {:.2}, check and prepare {:.2}", check / outside, (check + prepare) / outside);
}
