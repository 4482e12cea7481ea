//! The cases of a remote channel.

use super::Step;
use crate::alerts::registers;

const READ: i32 = 3;
const SAMPLE: i32 = 4;

/// What a diode event may meet that is done.
pub const TOLD: [&str; 15] = [
    "found",
    "found again",
    "mended",
    "mended again",
    "found, monitoring off",
    "mended, monitoring off",
    "found, flag on",
    "mended, flag on",
    "mended, latch on",
    "found, INT by it",
    "found, not enabled, no INT",
    "let go, found, INT back",
    "let go, not enabled, back",
    "let go, found again",
    "let go, mended",
];

/// What another event may meet while an error stands, or is to stand.
pub const STANDING: [&str; 7] = [
    "sample, answer=13",
    "sample, answer=9 before 13",
    "sample of the other, done",
    "sample of local, done",
    "read clears all but bit 5",
    "reset, found in service",
    "power mends",
];

pub fn told(step: &Step, channel: usize) -> [bool; TOLD.len()] {
    let Some((_, found)) = step.told().filter(|told| told.0 == channel) else {
        return [false; TOLD.len()];
    };
    let again = step.old.diode_error(channel) == found;
    let (finds, mends) = (found && !again, !found && !again);
    let registers = step.registers();
    let monitoring = registers[0x00] & 0x01 != 0;
    let enabled = registers[0x01] & (0x10 << channel) != 0;
    let (flag, latch) = (step.new.flag_on(channel), step.new.latch_on(channel));
    let (int, let_go) = (step.reply.int, step.let_go);
    [
        finds,
        found && again,
        mends,
        !found && again,
        finds && !monitoring,
        mends && !monitoring,
        finds && flag,
        mends && flag,
        mends && latch,
        finds && enabled && int && !let_go,
        finds && !enabled && registers[0x00] & 0x02 != 0 && !int,
        finds && enabled && int && let_go,
        finds && !enabled && int && let_go,
        found && again && let_go && !int,
        mends && let_go && !int,
    ]
}

pub fn standing(step: &Step, channel: usize, in_service: bool) -> [bool; STANDING.len()] {
    let (was, is) = (step.old.diode_error(channel), step.new.diode_error(channel));
    let sample_of = |who: usize| step.event[0] == SAMPLE && step.event[1] == who as i32;
    let answered = |who, answer| sample_of(who) && step.reply.answer == answer;
    let status = |keeper| registers(keeper)[0x01 + channel];
    [
        answered(channel, 13),
        answered(channel, 9) && was,
        answered(3 - channel, 0) && is,
        answered(0, 0) && is,
        step.done(READ) && is && status(step.old) != 0x20 && status(step.new) == 0x20,
        step.reset() && is && in_service,
        step.power() && was && !is,
    ]
}
