//! A planner written from the documents alone, over decoded arrays: reader, caps, limits, job, setpoints.
//!
//! `Path::read` takes a path frame apart once and works out what the limits need; `Job::make` starts a job on it and
//! `Job::advance` works on the job.

pub mod binding;
pub mod caps;
pub mod job;
pub mod limits;
pub mod path;
pub mod read;
pub mod refusal;
pub mod setpoint;
pub mod write;

pub use job::{Advanced, Job, Make, Seen, State};
pub use path::{Clause, Gap, Path, Row, Sample};
pub use refusal::{Layer, Refusal};

/// The greatest squared speed.
pub const SPEED_TOP: u32 = i32::MAX as u32;
/// The greatest permit class.
pub const CLASS_TOP: u8 = 7;
/// The greatest squared speed that each class grants.
pub const GRANTED: [u32; 8] = [0, 4_096, 16_384, 65_536, 147_456, 262_144, 1_048_576, SPEED_TOP];
