//! Clauses, frames and the path writer.

use crate::frames::{self, Layout};
use crate::linked;
use crate::ours;
use crate::random::Random;
use crate::tally::{Case, Tally};
use outside::{Path, caps, read};

/// What memory for bytes holds before a call.
const BEFORE: u8 = 0xa5;

impl Case {
    pub fn random(&self) -> Random {
        Random::of_case(self.seed, self.part, self.number)
    }
}

fn cap(kind: u8, first: u32, second: u32, lateral: u32) -> i64 {
    if kind > 3 || lateral > frames::TOP {
        return -1;
    }
    read::clause(kind, first, second).map_or(-1, |clause| caps::cap(clause, lateral).into())
}

/// A clause of any kind with any two numbers, under any lateral number.
pub fn clauses(tally: &mut Tally, case: Case) {
    let random = &case.random();
    let kind = random.pick(&[0, 1, 1, 2, 2, 2, 3, 4, 255, 2, 1, random.up_to(255) as u8]);
    let first = match kind {
        0 => random.pick(&[0, 0, random.bits()]),
        3 => random.pick(&[0, frames::TOP, frames::TOP + 1, random.bits() >> 1, random.bits()]),
        _ => frames::binary32(random),
    };
    let second = match kind {
        2 => frames::binary32(random),
        _ => random.pick(&[0, 0, 0, 0, 0x8000_0000, random.bits()]),
    };
    let near = random.of_any_size(u64::from(frames::TOP)) as u32;
    let lateral = random.pick(&[0, 1, frames::TOP, frames::TOP + 1, u32::MAX, near, near, near, near, random.bits()]);
    let what = format!("cap of kind {kind}, {first:#x}, {second:#x} under {lateral}");
    tally.same(case, &what, cap(kind, first, second, lateral), linked::cap(kind, first, second, lateral));
}

fn check(tally: &mut Tally, case: Case, frame: &[u8], what: &str) {
    let ours = ours::refusal(&Path::read(frame));
    tally.frames += 1;
    tally.reach(ours.number);
    tally.same(case, what, ours, linked::check(frame));
}

/// A frame as it is, and damaged.
pub fn frames(tally: &mut Tally, case: Case) {
    let random = &case.random();
    let layout = frames::short_layout(random);
    let frame = frames::frame(random, layout);
    if random.percent(20) {
        check(tally, case, &frame, "a good frame");
        let is_read = Path::read(&frame).is_ok();
        tally.same(case, "the generator's frame is accepted", is_read, true);
    } else {
        check(tally, case, &damaged(random, frame, layout), "a damaged frame");
    }
}

pub fn damaged(random: &Random, mut frame: Vec<u8>, layout: Layout) -> Vec<u8> {
    frames::damage(random, &mut frame, layout);
    frame.shrink_to_fit();
    frame
}

/// A long frame as it is, and damaged many times.
pub fn long_frames(tally: &mut Tally, case: Case) {
    const TIMES: usize = 30;
    let random = &case.random();
    let layout = frames::long_layout(random);
    let frame = frames::frame(random, layout);
    check(tally, case, &frame, "a good long frame");
    for _ in 0..TIMES {
        check(tally, case, &damaged(random, frame.clone(), layout), "a damaged long frame");
    }
    rewrite(tally, case, &frame, frame.len() + random.index(20));
}

fn rewrite(tally: &mut Tally, case: Case, frame: &[u8], room: usize) {
    let (mut expected, mut out) = (vec![BEFORE; room], vec![BEFORE; room]);
    let (count, refusal) = match Path::read(frame) {
        Err(refusal) => (0, ours::refusal::<()>(&Err(refusal))),
        Ok(path) => match path.write(&mut expected) {
            Ok(count) => (count as u64, ours::NO_REFUSAL),
            Err(number) => (0, ours::bare(number)),
        },
    };
    tally.reach(refusal.number);
    let answer = linked::rewrite(frame, &mut out);
    tally.same(case, &format!("rewriting into {room} bytes"), (count, refusal), answer);
    tally.same(case, "the memory rewritten into", expected, out);
}

/// A good or a damaged frame rewritten into memory that is too short, exact or longer.
pub fn rewriting(tally: &mut Tally, case: Case) {
    let random = &case.random();
    let layout = frames::short_layout(random);
    let mut frame = frames::frame(random, layout);
    if random.percent(20) {
        frame = damaged(random, frame, layout);
    }
    let size = frame.len();
    let room = match random.up_to(5) {
        0 => random.index(size + 1),
        1 => size.saturating_sub(1),
        2 | 3 => size,
        _ => size + 1 + random.index(40),
    };
    rewrite(tally, case, &frame, room);
}
