//! The path writer and its question.

use crate::path::{Clause, Path};
use crate::read::{BEFORE_LENGTH, VERSION, length};

/// The memory is shorter than the path frame.
pub const TOO_SHORT: u32 = 72;

impl Path {
    /// The bytes of this path's frame.
    pub fn frame_bytes(&self) -> usize {
        BEFORE_LENGTH + length(self.samples.len(), self.rows.len())
    }

    /// This path's frame.
    pub fn to_frame(&self) -> Vec<u8> {
        let mut out = Vec::with_capacity(self.frame_bytes());
        out.push(VERSION);
        out.extend((length(self.samples.len(), self.rows.len()) as u32).to_be_bytes());
        out.extend((self.samples.len() as u16).to_be_bytes());
        out.extend(self.spacing.to_be_bytes());
        out.extend(self.lateral.to_be_bytes());
        out.extend((self.rows.len() as u16).to_be_bytes());
        for sample in &self.samples {
            let (kind, first, second) = numbers(sample.clause);
            out.extend([kind, sample.class_cap, sample.class_floor, 0]);
            out.extend(first.to_be_bytes());
            out.extend(second.to_be_bytes());
            out.extend(sample.speed_floor.to_be_bytes());
            out.extend(sample.offset.to_be_bytes());
        }
        for gap in &self.gaps {
            out.extend([gap.rise, gap.fall, 0, 0]);
            out.extend(gap.up.to_be_bytes());
            out.extend(gap.down.to_be_bytes());
        }
        for row in &self.rows {
            out.extend(row.gap.to_be_bytes());
            out.extend([0, 0]);
            for number in [row.d, row.c, row.g, row.lo, row.hi] {
                out.extend(number.to_be_bytes());
            }
        }
        out
    }

    /// Writes this path's frame to the front of the memory, or leaves it as it is: the bytes written.
    pub fn write(&self, memory: &mut [u8]) -> Result<usize, u32> {
        let count = self.frame_bytes();
        match memory.get_mut(..count) {
            Some(front) => {
                front.copy_from_slice(&self.to_frame());
                Ok(count)
            }
            None => Err(TOO_SHORT),
        }
    }
}

/// A clause's kind and two numbers.
pub fn numbers(clause: Clause) -> (u8, u32, u32) {
    match clause {
        Clause::Free => (0, 0, 0),
        Clause::Straight { top } => (1, top, 0),
        Clause::Bend { top, curvature } => (2, top, curvature),
        Clause::Fixed { square } => (3, square, 0),
    }
}
