//! The cases of a fan.

use super::course::{Step, CLOCK, PERIOD, TACH};
use second::keeper::{Keeper, Reason};

/// How its duty may change, or not; where nothing else is said the age before is above 0, so that a start would show.
pub const DUTY: [&str; 12] = [
    "start",
    "start, stamp 0",
    "start again",
    "stop",
    "clock, duty 0 after a stop",
    "clock, never started",
    "ramp step, no start",
    "spin-up over, no start",
    "override, no start",
    "override over, no start",
    "new target, no start",
    "failed count, no start",
];

/// What power and reset may meet; the age before a reset and the stamp before a power are above 0.
pub const AFRESH: [&str; 10] = [
    "reset, runs on by the pin",
    "reset, runs on by a diode",
    "reset, stops",
    "reset, starts",
    "reset, duty 0",
    "power, age above 0",
    "power, age 0",
    "power, starts by a diode",
    "power, runs on by a diode",
    "refused, age above 0",
];

/// What the age may be beside the stamp, and beside the clock events since the fan's stamp was set.
pub const TURN: [&str; 8] = [
    "age above the stamp",
    "age above the stamp, duty 0",
    "age 65,535",
    "age 0 after 65,536 clocks",
    "small age after more, runs",
    "small age after more, duty 0",
    "start after the stamp's turn",
    "reset after the stamp's turn",
];

/// An age below this is small.
const SMALL: i32 = 1_000;

pub fn duty(step: &Step, fan: usize) -> [bool; DUTY.len()] {
    let (was, is, age) = (step.duty[fan], step.reply.duty[fan], step.old.age(fan));
    let (starts, older) = (step.starts(fan), age > 0);
    let changes = !step.afresh() && was > 0 && is > 0 && was != is && older;
    let still = step.done(CLOCK) && is == 0;
    let over = changes.then(|| [step.old, step.new].map(|keeper| overridden(keeper, fan)));
    let by_itself = ![CLOCK, PERIOD, TACH].contains(&step.event[0]);
    [
        starts && older && step.new.stamp() > 0,
        starts && step.new.stamp() == 0,
        starts && older && step.started[fan],
        !step.afresh() && was > 0 && is == 0 && older,
        still && step.started[fan],
        still && !step.started[fan],
        changes && step.done(PERIOD),
        changes && step.done(CLOCK),
        over == Some([false, true]),
        over == Some([true, false]),
        over == Some([false, false]) && by_itself,
        step.done(TACH) && older && fails(step, fan),
    ]
}

pub fn afresh(step: &Step, fan: usize) -> [bool; AFRESH.len()] {
    let (was, is, age) = (
        step.duty[fan] > 0,
        step.reply.duty[fan] > 0,
        step.old.age(fan),
    );
    let reset = step.reset() && age > 0;
    let power = step.power() && step.old.stamp() > 0;
    let pin = || step.new.why(fan as i32 + 1) == Ok(Reason::PinLow);
    [
        reset && was && is && pin(),
        reset && was && is && !pin(),
        reset && was && !is,
        reset && !was && is,
        reset && !was && !is,
        power && age > 0,
        power && age == 0,
        power && !was && is,
        power && was && is,
        step.reply.answer != 0 && age > 0,
    ]
}

pub fn turn(step: &Step, fan: usize) -> [bool; TURN.len()] {
    let (age, clocks, runs) = (
        step.new.age(fan),
        step.clocks[fan],
        step.reply.duty[fan] > 0,
    );
    let above = age > step.new.stamp();
    let small = clocks > 65_536 && age < SMALL;
    let turned = step.total >= 65_536;
    [
        above && runs,
        above && !runs,
        clocks == 65_535,
        clocks == 65_536,
        small && runs,
        small && !runs,
        turned && step.starts(fan),
        turned && step.reset() && step.old.age(fan) > 0,
    ]
}

fn overridden(keeper: &Keeper, fan: usize) -> bool {
    let why = keeper.why(fan as i32 + 1);
    matches!(why, Ok(Reason::PinLow | Reason::Latched(_)))
}

/// Whether a spin-up begins, which a count does only where it fails.
fn fails(step: &Step, fan: usize) -> bool {
    let spins = |keeper: &Keeper| matches!(keeper.why(fan as i32 + 1), Ok(Reason::SpinUp(_)));
    !spins(step.old) && spins(step.new)
}
