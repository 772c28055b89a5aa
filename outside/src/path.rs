//! A path, taken apart: its records as they are in the frame, and what its limits need.

use crate::limits::Limits;

/// A cap clause; top speed and curvature are the bits of binary32 numbers.
#[derive(Clone, Copy, PartialEq, Eq, Debug)]
pub enum Clause {
    Free,
    Straight { top: u32 },
    Bend { top: u32, curvature: u32 },
    Fixed { square: u32 },
}

#[derive(Clone, Copy, PartialEq, Eq, Debug)]
pub struct Sample {
    pub clause: Clause,
    pub class_cap: u8,
    pub class_floor: u8,
    /// What the clause comes to.
    pub speed_cap: u32,
    pub speed_floor: u32,
    pub offset: i32,
}

#[derive(Clone, Copy, PartialEq, Eq, Debug)]
pub struct Gap {
    pub rise: u8,
    pub fall: u8,
    pub up: u32,
    pub down: u32,
}

#[derive(Clone, Copy, PartialEq, Eq, Debug)]
pub struct Row {
    pub gap: u16,
    pub d: i32,
    pub c: i32,
    pub g: i32,
    pub lo: i32,
    pub hi: i32,
}

#[derive(Clone, Debug)]
pub struct Path {
    pub spacing: u16,
    pub lateral: u32,
    pub samples: Vec<Sample>,
    pub gaps: Vec<Gap>,
    pub rows: Vec<Row>,
    pub limits: Limits,
}
