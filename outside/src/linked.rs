//! The static library, by its C declarations (furqyzet.h), and safe wrappers.

#[repr(C)]
#[derive(Clone, Copy, PartialEq, Eq, Debug, Default)]
pub struct Refusal {
    pub layer: u32,
    pub number: u32,
    pub place: u64,
}

#[repr(C)]
#[derive(Clone, Copy, PartialEq, Eq, Debug, Default)]
pub struct ClassCell {
    pub value: u8,
    pub cap: u8,
    pub floor: u8,
}

#[repr(C)]
#[derive(Clone, Copy, PartialEq, Eq, Debug, Default)]
pub struct SpeedCell {
    pub value: u32,
    pub cap: u32,
    pub floor: u32,
}

#[repr(C)]
#[derive(Clone, Copy, PartialEq, Eq, Debug, Default)]
pub struct Job {
    pub samples: u64,
    pub found: u64,
    pub visited: u64,
    pub state: u8,
    pub falling: u8,
    pub marked: u8,
    pub spare: u8,
}

#[repr(C)]
#[derive(Clone, Copy, PartialEq, Eq, Debug, Default)]
pub struct Call {
    pub sample: u64,
    pub value: u64,
    pub kind: u8,
    pub make: u8,
}

#[repr(C)]
#[derive(Clone, Copy, PartialEq, Eq, Debug, Default)]
pub struct Answer {
    pub evaluations: u64,
    pub lowerings: u64,
    pub found: u64,
    pub number: u32,
    pub class: u32,
    pub speed: u32,
    pub state: u32,
}

#[repr(C)]
#[derive(Clone, Copy, PartialEq, Eq, Debug, Default)]
pub struct Clash {
    pub most: i64,
    pub make: u32,
    pub bound: u32,
    pub floor: u32,
    pub is_there: u32,
}

#[repr(C)]
#[derive(Clone, Copy, PartialEq, Eq, Debug, Default)]
pub struct SampleBounds {
    pub up: u32,
    pub down: u32,
    pub offset: i32,
    pub first_row: u32,
}

#[repr(C)]
#[derive(Clone, Copy, PartialEq, Eq, Debug, Default)]
pub struct RowBounds {
    pub before: u32,
    pub after: u32,
    pub left: i64,
    pub right: i64,
}

/// The two memories that a frame is prepared in.
#[derive(Clone, PartialEq, Eq, Debug, Default)]
pub struct Prepared {
    pub samples: Vec<SampleBounds>,
    pub rows: Vec<RowBounds>,
}

/// A job and the two memories that it works on.
#[derive(Clone, PartialEq, Eq, Debug, Default)]
pub struct Work {
    pub classes: Vec<ClassCell>,
    pub speeds: Vec<SpeedCell>,
    pub job: Job,
}

mod c {
    use super::{Answer, Call, Clash, ClassCell, Job, Refusal, RowBounds, SampleBounds, SpeedCell};

    #[link(name = "furqyzet_c", kind = "static")]
    unsafe extern "C" {
        pub fn furqyzet_check(frame: *const u8, size: usize, refusal: *mut Refusal);
        pub safe fn furqyzet_cap(kind: u8, first: u32, second: u32, lateral: u32) -> i64;
        pub fn furqyzet_rewrite(frame: *const u8, size: usize, out: *mut u8, room: usize, refusal: *mut Refusal) -> u64;
        pub fn furqyzet_make(
            frame: *const u8,
            size: usize,
            classes: *mut ClassCell,
            n: usize,
            speeds: *mut SpeedCell,
            m: usize,
            job: *mut Job,
            refusal: *mut Refusal,
        );
        pub fn furqyzet_run(
            frame: *const u8,
            size: usize,
            classes: *mut ClassCell,
            n: usize,
            speeds: *mut SpeedCell,
            m: usize,
            job: *mut Job,
            calls: *const Call,
            k: usize,
            answers: *mut Answer,
            r: usize,
            refusal: *mut Refusal,
        );
        pub fn furqyzet_advance(
            frame: *const u8,
            size: usize,
            classes: *mut ClassCell,
            n: usize,
            speeds: *mut SpeedCell,
            m: usize,
            job: *mut Job,
            allowance: u64,
            answer: *mut Answer,
        );
        pub fn furqyzet_prepare(
            frame: *const u8,
            size: usize,
            samples: *mut SampleBounds,
            p: usize,
            rows: *mut RowBounds,
            q: usize,
        ) -> u32;
        pub fn furqyzet_advance_prepared(
            frame: *const u8,
            size: usize,
            samples: *const SampleBounds,
            p: usize,
            rows: *const RowBounds,
            q: usize,
            classes: *mut ClassCell,
            n: usize,
            speeds: *mut SpeedCell,
            m: usize,
            job: *mut Job,
            allowance: u64,
            answer: *mut Answer,
        );
        pub fn furqyzet_setpoints(
            job: *mut Job,
            classes: *mut ClassCell,
            n: usize,
            speeds: *mut SpeedCell,
            m: usize,
            out: *mut u8,
            room: usize,
            refusal: *mut Refusal,
        ) -> u64;
        pub fn furqyzet_sufficient(classes: *mut ClassCell, n: usize, speeds: *mut SpeedCell, m: usize, job: *const Job) -> u64;
        pub fn furqyzet_bound(
            frame: *const u8,
            size: usize,
            classes: *mut ClassCell,
            n: usize,
            speeds: *mut SpeedCell,
            m: usize,
            make: u8,
            sample: u64,
        ) -> u32;
        pub fn furqyzet_clash(
            frame: *const u8,
            size: usize,
            classes: *mut ClassCell,
            n: usize,
            speeds: *mut SpeedCell,
            m: usize,
            sample: u64,
            found: *mut Clash,
        );
    }
}

/// What no call writes: a wrapper puts it where an answer goes, so that an answer left unwritten shows.
const UNWRITTEN: Refusal = Refusal { layer: 77, number: 7777, place: 777_777 };
const UNANSWERED: Answer =
    Answer { evaluations: u64::MAX, lowerings: 0, found: 0, number: u32::MAX, class: 0, speed: 0, state: 0 };

pub fn check(frame: &[u8]) -> Refusal {
    let mut refusal = UNWRITTEN;
    unsafe { c::furqyzet_check(frame.as_ptr(), frame.len(), &mut refusal) };
    refusal
}

pub fn cap(kind: u8, first: u32, second: u32, lateral: u32) -> i64 {
    c::furqyzet_cap(kind, first, second, lateral)
}

pub fn rewrite(frame: &[u8], out: &mut [u8]) -> (u64, Refusal) {
    let mut refusal = UNWRITTEN;
    let count = unsafe { c::furqyzet_rewrite(frame.as_ptr(), frame.len(), out.as_mut_ptr(), out.len(), &mut refusal) };
    (count, refusal)
}

impl Prepared {
    /// Prepares a frame that `check` accepts.
    pub fn prepare(&mut self, frame: &[u8]) -> u32 {
        let (samples, rows) = (&mut self.samples, &mut self.rows);
        unsafe {
            c::furqyzet_prepare(frame.as_ptr(), frame.len(), samples.as_mut_ptr(), samples.len(), rows.as_mut_ptr(), rows.len())
        }
    }
}

impl Work {
    pub fn make(&mut self, frame: &[u8]) -> Refusal {
        let mut refusal = UNWRITTEN;
        unsafe {
            c::furqyzet_make(
                frame.as_ptr(),
                frame.len(),
                self.classes.as_mut_ptr(),
                self.classes.len(),
                self.speeds.as_mut_ptr(),
                self.speeds.len(),
                &mut self.job,
                &mut refusal,
            );
        }
        refusal
    }

    pub fn run(&mut self, frame: &[u8], calls: &[Call], answers: &mut [Answer]) -> Refusal {
        let mut refusal = UNWRITTEN;
        unsafe {
            c::furqyzet_run(
                frame.as_ptr(),
                frame.len(),
                self.classes.as_mut_ptr(),
                self.classes.len(),
                self.speeds.as_mut_ptr(),
                self.speeds.len(),
                &mut self.job,
                calls.as_ptr(),
                calls.len(),
                answers.as_mut_ptr(),
                answers.len(),
                &mut refusal,
            );
        }
        refusal
    }

    /// The frame is one that `check` accepts.
    pub fn advance(&mut self, frame: &[u8], allowance: u64) -> Answer {
        let mut answer = UNANSWERED;
        unsafe {
            c::furqyzet_advance(
                frame.as_ptr(),
                frame.len(),
                self.classes.as_mut_ptr(),
                self.classes.len(),
                self.speeds.as_mut_ptr(),
                self.speeds.len(),
                &mut self.job,
                allowance,
                &mut answer,
            );
        }
        answer
    }

    /// The same under the frame prepared.
    pub fn advance_prepared(&mut self, frame: &[u8], prepared: &Prepared, allowance: u64) -> Answer {
        let mut answer = UNANSWERED;
        unsafe {
            c::furqyzet_advance_prepared(
                frame.as_ptr(),
                frame.len(),
                prepared.samples.as_ptr(),
                prepared.samples.len(),
                prepared.rows.as_ptr(),
                prepared.rows.len(),
                self.classes.as_mut_ptr(),
                self.classes.len(),
                self.speeds.as_mut_ptr(),
                self.speeds.len(),
                &mut self.job,
                allowance,
                &mut answer,
            );
        }
        answer
    }

    pub fn setpoints(&mut self, out: &mut [u8]) -> (u64, Refusal) {
        let mut refusal = UNWRITTEN;
        let count = unsafe {
            c::furqyzet_setpoints(
                &mut self.job,
                self.classes.as_mut_ptr(),
                self.classes.len(),
                self.speeds.as_mut_ptr(),
                self.speeds.len(),
                out.as_mut_ptr(),
                out.len(),
                &mut refusal,
            )
        };
        (count, refusal)
    }

    pub fn sufficient(&mut self) -> u64 {
        unsafe {
            c::furqyzet_sufficient(
                self.classes.as_mut_ptr(),
                self.classes.len(),
                self.speeds.as_mut_ptr(),
                self.speeds.len(),
                &self.job,
            )
        }
    }

    pub fn bound(&mut self, frame: &[u8], make: u8, sample: u64) -> u32 {
        unsafe {
            c::furqyzet_bound(
                frame.as_ptr(),
                frame.len(),
                self.classes.as_mut_ptr(),
                self.classes.len(),
                self.speeds.as_mut_ptr(),
                self.speeds.len(),
                make,
                sample,
            )
        }
    }

    pub fn clash(&mut self, frame: &[u8], sample: u64) -> Clash {
        let mut found = Clash { most: 7777, make: 77, bound: 7777, floor: 77, is_there: 77 };
        unsafe {
            c::furqyzet_clash(
                frame.as_ptr(),
                frame.len(),
                self.classes.as_mut_ptr(),
                self.classes.len(),
                self.speeds.as_mut_ptr(),
                self.speeds.len(),
                sample,
                &mut found,
            );
        }
        found
    }
}
