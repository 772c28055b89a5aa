//! Memory: what a caller lends for a sample, and the stack that calls use.

use crate::linked::{Answer, Call, ClassCell, Job, RowBounds, SampleBounds, SpeedCell, Work};
use crate::paths::{Kind, random};
use crate::speed::{made, prepared};
use outside::Path;
use std::hint::black_box;

const SIZES: [usize; 2] = [64, 4096];
const PAINTED: usize = 512 * 1024;
const STACK: usize = 4 * PAINTED;
/// Between the painter's own frame and what it paints.
const MARGIN: usize = 256;
const PAINT: u8 = 0xa5;
const CUT: u8 = 1;
const SPEEDS: u8 = 1;

/// Paints the stack below and gives where the paint ends.
#[inline(never)]
fn paint() -> usize {
    let here = 0u8;
    let top = black_box(&raw const here) as usize - MARGIN;
    for at in (top - PAINTED)..top {
        // within this thread's stack, below every frame in use
        unsafe { std::ptr::write_volatile(at as *mut u8, PAINT) };
    }
    top
}

/// How many bytes below `top` are no longer painted.
#[inline(never)]
fn used(top: usize) -> usize {
    let lowest = (top - PAINTED..top).find(|&at| unsafe { std::ptr::read_volatile(at as *const u8) } != PAINT);
    lowest.map_or(MARGIN, |at| top + MARGIN - at)
}

/// The stack that a call uses at most, with the frames of this measurement.
fn stack(call: impl FnOnce() + Send) -> usize {
    let measure = || {
        let top = paint();
        call();
        used(top)
    };
    std::thread::scope(|scope| {
        let thread = std::thread::Builder::new().stack_size(STACK).spawn_scoped(scope, measure);
        thread.expect("a thread").join().expect("its figure")
    })
}

fn cut(work: &mut Work, frame: &[u8]) {
    let call = Call { sample: work.speeds.len() as u64 / 2, value: 0, kind: CUT, make: SPEEDS };
    let mut answers = [Answer::default()];
    assert_eq!(work.run(frame, &[call], &mut answers).number, 0);
    assert_eq!(answers[0].number, 0);
}

/// The stack of nothing, of a making, a preparation, an advance under the frame prepared and one under it as it lies, a cut and
/// setpoints, on a path of so many samples.
fn stacks(n: usize) -> [usize; 7] {
    let frame = random(Kind::Torque, n);
    let (mut work, mut beside) = (made(&frame, n), made(&frame, n));
    let mut prepared = prepared(&frame, &Path::read(&frame).expect("a good frame"));
    let nothing = stack(|| {});
    let make = stack(|| assert_eq!(work.make(&frame).number, 0));
    let prepare = stack(|| assert_eq!(prepared.prepare(&frame), 1));
    let advance_prepared = stack(|| assert_eq!(beside.advance_prepared(&frame, &prepared, u64::MAX).number, 0));
    let advance = stack(|| assert_eq!(work.advance(&frame, u64::MAX).number, 0));
    let cut = stack(|| cut(&mut work, &frame));
    work.advance(&frame, u64::MAX);
    let mut setpoints = vec![0; 7 + 3 * n];
    [nothing, make, prepare, advance_prepared, advance, cut, stack(|| assert_ne!(work.setpoints(&mut setpoints).0, 0))]
}

pub fn table() {
    let (class, speed) = (size_of::<ClassCell>(), size_of::<SpeedCell>());
    println!(
        "\nMemory lent: {} bytes a sample (class {class}, speed {speed}), and {} bytes for the job; to prepare {} a sample and {} a row",
        class + speed,
        size_of::<Job>(),
        size_of::<SampleBounds>(),
        size_of::<RowBounds>()
    );
    println!("Stack used at most, bytes, of which up to {MARGIN} are the measurement's own (two rows a gap)");
    let heads = ["nothing", "make", "prepare", "prepared", "in place", "a cut", "setpoints"];
    println!("{:>6}{}", "n", heads.map(|head| format!(" {head:>10}")).concat());
    for n in SIZES {
        println!("{n:>6}{}", stacks(n).map(|bytes| format!(" {bytes:>10}")).concat());
    }
}
