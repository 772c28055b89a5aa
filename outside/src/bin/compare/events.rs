//! What a call did to a job, in words: the comparison makes sure that each was met.

use crate::linked::Call;
use crate::ours::{ADVANCE, CUT, LIFT};
use outside::job::{Job, State};

pub const EVERY: [&str; 17] = [
    "a making impossible at a class",
    "a making impossible at a speed",
    "an evaluation of classes impossible",
    "an evaluation of speeds impossible",
    "a pour impossible",
    "a cut impossible",
    "a lift impossible",
    "the classes still",
    "settled",
    "a settled job opened at its classes",
    "a settled job opened at its speeds",
    "speeds left for classes by a cut",
    "a class sweep marked by a cut",
    "a speed sweep marked by a cut",
    "an advance that ends within a forward sweep",
    "an advance that ends within a backward sweep",
    "a cut or a lift that changes no value",
];

pub fn of_making(job: &Job) -> Option<&'static str> {
    let is_at_a_class = job.classes.floors.iter().zip(&job.classes.caps).any(|(floor, cap)| floor > cap);
    match (job.state, is_at_a_class) {
        (State::Impossible { .. }, true) => Some(EVERY[0]),
        (State::Impossible { .. }, false) => Some(EVERY[1]),
        _ => None,
    }
}

fn of_advance(before: &Job, after: &Job) -> Option<&'static str> {
    match (before.state, after.state) {
        // a pour leaves a fresh sweep, and makes a job impossible after the classes alone
        (_, State::Impossible { .. }) if is_of_speeds(after) => Some(EVERY[3]),
        (State::Classes, State::Impossible { .. }) if after.sweep.visited > 0 || after.sweep.falling => Some(EVERY[2]),
        (State::Classes, State::Impossible { .. }) => Some(EVERY[4]),
        (State::Classes, State::Speeds) => Some(EVERY[7]),
        (State::Classes | State::Speeds, State::Settled) => Some(EVERY[8]),
        _ if after.sweep.visited == 0 => None,
        _ if after.sweep.falling => Some(EVERY[15]),
        _ => Some(EVERY[14]),
    }
}

/// Whether an impossible job was found so while its speeds were swept: then each is poured already.
fn is_of_speeds(job: &Job) -> bool {
    let granted = job.classes.values().iter().map(|&class| outside::GRANTED[usize::from(class)]);
    granted.zip(job.speeds.values()).all(|(granted, &speed)| speed <= granted)
}

fn of_cut(before: &Job, after: &Job) -> Option<&'static str> {
    match (before.state, after.state) {
        (State::Settled, State::Classes) => Some(EVERY[9]),
        (State::Settled, State::Speeds) => Some(EVERY[10]),
        (State::Speeds, State::Classes) => Some(EVERY[11]),
        (State::Classes, _) if after.sweep.marked && !before.sweep.marked => Some(EVERY[12]),
        (State::Speeds, _) if after.sweep.marked && !before.sweep.marked => Some(EVERY[13]),
        _ => of_neither(before, after),
    }
}

fn of_neither(before: &Job, after: &Job) -> Option<&'static str> {
    let is_same = before.classes.values() == after.classes.values() && before.speeds.values() == after.speeds.values();
    is_same.then_some(EVERY[16])
}

pub fn of_call(before: &Job, call: Call, after: &Job) -> Option<&'static str> {
    let is_found = after.state != before.state && matches!(after.state, State::Impossible { .. });
    match call.kind {
        ADVANCE => of_advance(before, after),
        CUT if is_found => Some(EVERY[5]),
        LIFT if is_found => Some(EVERY[6]),
        CUT => of_cut(before, after),
        LIFT => of_neither(before, after),
        _ => None,
    }
}
