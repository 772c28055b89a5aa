//! The frames of samples/, and what the documents say of them.

use outside::job::{Job, State};
use outside::{Layer, Path, Refusal};

fn sample(name: &str) -> Vec<u8> {
    let file = format!("{}/../samples/{name}.path", env!("CARGO_MANIFEST_DIR"));
    std::fs::read(file).expect("a sample")
}

fn refused(name: &str) -> Refusal {
    Path::read(&sample(name)).expect_err("a refused sample")
}

#[test]
fn good_ones_are_written_again() {
    for name in ["five", "three", "bends", "torque", "steep", "slow-class", "low-cap"] {
        let frame = sample(name);
        let path = Path::read(&frame).expect("a good sample");
        assert_eq!(path.to_frame(), frame, "{name}");
        let mut memory = vec![0xa5; frame.len() + 2];
        assert_eq!(path.write(&mut memory), Ok(frame.len()));
        assert_eq!(memory[..frame.len()], frame);
        assert_eq!(memory[frame.len()..], [0xa5; 2]);
        assert_eq!(path.write(&mut memory[..frame.len() - 1]), Err(72));
    }
}

#[test]
fn bad_ones_are_refused() {
    assert_eq!(refused("damaged"), Refusal { layer: Layer::Frame, number: 12, place: 1 });
    assert_eq!(refused("bad-sample").layer, Layer::Sample);
    assert_eq!(refused("bad-gap").layer, Layer::Gap);
    assert_eq!(refused("bad-torque").layer, Layer::Torque);
}

#[test]
fn jobs_end() {
    for (name, is_settled) in [
        ("five", true),
        ("three", true),
        ("bends", true),
        ("torque", true),
        ("steep", false),
        ("slow-class", false),
        ("low-cap", false),
    ] {
        let path = Path::read(&sample(name)).expect("a good sample");
        let mut job = Job::make(&path);
        if job.state == State::Classes {
            job.advance(&path, job.sufficient_allowance()).expect("it works");
        }
        assert_eq!(job.state == State::Settled, is_settled, "{name}");
        if is_settled {
            println!("{name} {:?} {:?}", job.classes.values(), job.speeds.values());
        }
    }
}
