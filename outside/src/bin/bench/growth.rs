//! How evaluations to settle grow with the samples, for four families of paths.

use crate::paths::{deep_valley, flat, staircase, valley};
use crate::speed::agree;
use outside::Path;

const SIZES: [usize; 6] = [5, 16, 64, 256, 1024, 4096];
/// Work that needs more is not waited for.
const MOST: u64 = 300_000_000;

/// A family: its name, and its path of so many samples.
type Family = (&'static str, fn(usize) -> Vec<u8>);

const FAMILIES: [Family; 4] =
    [("flat, fixed ends", flat), ("staircase", staircase), ("averaging valley", valley), ("valley without ramps", deep_valley)];

pub fn table() {
    println!("\nEvaluations until settled (and for each sample)");
    print!("{:>6}", "n");
    FAMILIES.iter().for_each(|(name, _)| print!(" {name:>28}"));
    println!();
    for n in SIZES {
        print!("{n:>6}");
        for (_, make) in FAMILIES {
            let frame = make(n);
            let path = Path::read(&frame).expect("a good frame");
            let (evaluations, _) = agree(&frame, &path, MOST);
            let each = evaluations as f64 / n as f64;
            let more = if evaluations == MOST { "over " } else { "" };
            print!(" {:>28}", format!("{more}{evaluations} ({each:.1})"));
        }
        println!();
    }
}
