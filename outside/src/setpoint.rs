//! Releasing a settled job, and its setpoint frame.

use crate::job::{Job, State};

pub const NOT_SETTLED: u32 = 70;
pub const TOO_SHORT: u32 = 71;
const VERSION: u8 = 1;
/// Version, length and the count of samples.
const HEAD: usize = 7;
const SETPOINT: usize = 3;
const COUNT: usize = 2;

/// The table of a job that was released.
#[derive(Clone, PartialEq, Eq, Debug)]
pub struct Released {
    pub classes: Vec<u8>,
    pub speeds: Vec<u32>,
}

impl Job {
    /// Gives up a settled job for its table; any other job comes back.
    pub fn release(self) -> Result<Released, (u32, Box<Job>)> {
        match self.state {
            State::Settled => Ok(Released { classes: self.classes.values().to_vec(), speeds: self.speeds.values().to_vec() }),
            _ => Err((NOT_SETTLED, Box::new(self))),
        }
    }
}

impl Released {
    pub fn frame_bytes(&self) -> usize {
        HEAD + SETPOINT * self.classes.len()
    }

    /// Writes the setpoint frame to the front of the memory, or leaves it as it is: the bytes written.
    pub fn write(&self, memory: &mut [u8]) -> Result<usize, u32> {
        let (n, count) = (self.classes.len(), self.frame_bytes());
        let front = memory.get_mut(..count).ok_or(TOO_SHORT)?;
        front[0] = VERSION;
        front[1..5].copy_from_slice(&((COUNT + SETPOINT * n) as u32).to_be_bytes());
        front[5..HEAD].copy_from_slice(&(n as u16).to_be_bytes());
        let table = self.classes.iter().zip(&self.speeds);
        for (setpoint, (&class, &speed)) in front[HEAD..].chunks_exact_mut(SETPOINT).zip(table) {
            setpoint[0] = class;
            setpoint[1..].copy_from_slice(&(speed.isqrt() as u16).to_be_bytes());
        }
        Ok(count)
    }
}
