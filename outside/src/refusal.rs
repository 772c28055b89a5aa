//! What a refused frame or making answers.

#[derive(Clone, Copy, PartialEq, Eq, Debug)]
pub enum Layer {
    Frame,
    Sample,
    Gap,
    Torque,
    Memory,
}

/// The first question that says no, and the offset of the first byte of the field that it is about.
#[derive(Clone, Copy, PartialEq, Eq, Debug)]
pub struct Refusal {
    pub layer: Layer,
    pub number: u32,
    pub place: u64,
}
