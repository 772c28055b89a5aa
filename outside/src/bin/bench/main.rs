//! Measures the static library against this planner, on the same inputs, in one run: `bench [FRAME ..]`, with frames those
//! alone.

// of the library's calls not all are measured
#[allow(dead_code)]
#[path = "../../linked.rs"]
mod linked;

mod growth;
mod memory;
mod paths;
mod speed;

fn main() {
    let frames: Vec<String> = std::env::args().skip(1).collect();
    if !frames.is_empty() {
        return speed::of_files(&frames);
    }
    speed::evaluations();
    speed::reading();
    growth::table();
    memory::table();
}
