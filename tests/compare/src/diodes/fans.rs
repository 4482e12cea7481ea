//! The cases of a fan.

use super::{Step, DIODE};
use crate::events::second_event;
use second::keeper::{Keeper, Reason};

const PERIOD: i32 = 8;
const FULL: i32 = 240;

/// What a fan may meet as an error is found or mended on a channel that it follows.
pub const TOLD: [&str; 8] = [
    "found, spin-up from 0",
    "found, unfiltered to 240",
    "found, filtered stays",
    "found while spinning up",
    "found under override",
    "found while disabled",
    "mended, lower at once",
    "mended, target 0",
];

/// What it may meet while an error stands; the first five where no other channel asks 240.
pub const STANDING: [&str; 15] = [
    "240, flag off",
    "240, m 0",
    "240 by remote 1",
    "240 by remote 2",
    "ramp up towards 240",
    "power with an error",
    "reset with an error",
    "disabled",
    "not assigned, below 240",
    "manual, below 240",
    "manual, filter on",
    "demand of remote 1 in error",
    "demand of remote 2 in error",
    "demand of local at 240",
    "demand of remote 1, both",
];

pub fn told(step: &Step, fan: usize) -> [bool; TOLD.len()] {
    let follows = |channel| automatic(step) && step.new.assigned(fan).contains(&channel);
    let told = step.told().filter(|told| follows(told.0));
    let Some((_, found)) = told.filter(|told| step.old.diode_error(told.0) != told.1) else {
        return [false; TOLD.len()];
    };
    let [before, after] = [step.old, step.new].map(|keeper| keeper.why(fan as i32 + 1));
    let duty = step.reply.duty[fan];
    let spins = |why| matches!(why, Ok(Reason::SpinUp(_)));
    let asked = |why| matches!(why, Ok(Reason::Demand(_)));
    let over = matches!(after, Ok(Reason::PinLow | Reason::Latched(_)));
    let lower = ask(step.old, fan) < FULL;
    let filtered = step.new.filtered(fan);
    [
        found && before == Ok(Reason::ZeroTarget) && spins(after) && duty == FULL,
        found && lower && asked(before) && asked(after) && !filtered && duty == FULL,
        found && lower && matches!(after, Ok(Reason::Ramp { to_go: 1.., .. })),
        found && lower && spins(before) && spins(after),
        found && lower && over,
        found && after == Ok(Reason::Disabled) && duty == 0,
        !found && asked(before) && asked(after) && (1..FULL).contains(&duty),
        !found && asked(before) && after == Ok(Reason::ZeroTarget),
    ]
}

pub fn standing(step: &Step, fan: usize) -> [bool; STANDING.len()] {
    let registers = step.registers();
    let speed = (registers[0x22] >> (4 * fan)) & 0x0f;
    let why = step.new.why(fan as i32 + 1);
    let broken = |channel: usize| step.new.diode_error(channel);
    let assigned = |channel: usize| step.new.assigned(fan).contains(&channel);
    let follows = |channel: usize| automatic(step) && assigned(channel) && broken(channel);
    // It is full by this channel, and would not be if the diode were sound.
    let drives = |channel: usize| follows(channel) && ask(&sound(step.new, channel), fan) < FULL;
    let full = |channel: usize| drives(channel) && why == Ok(Reason::Demand(channel));
    let any = |case: &dyn Fn(usize) -> bool| case(1) || case(2);
    let at_full = any(&follows) && step.reply.duty[fan] == FULL;
    let spared = automatic(step) && any(&broken) && !any(&follows) && ask(step.new, fan) < FULL;
    let manual = any(&|channel| assigned(channel) && broken(channel)) && why == Ok(Reason::Manual);
    [
        any(&|channel| full(channel) && !step.new.flag_on(channel)),
        any(&|channel| full(channel) && speed == 0),
        full(1),
        full(2),
        any(&drives) && ramps_up(step, fan),
        step.power() && at_full,
        step.reset() && at_full,
        any(&follows) && why == Ok(Reason::Disabled),
        spared,
        manual && speed < 15,
        manual && speed < 15 && step.new.filtered(fan),
        why == Ok(Reason::Demand(1)) && broken(1),
        why == Ok(Reason::Demand(2)) && broken(2),
        why == Ok(Reason::Demand(0)) && any(&follows),
        why == Ok(Reason::Demand(1)) && follows(1) && follows(2),
    ]
}

fn automatic(step: &Step) -> bool {
    step.registers()[0x00] & 0x80 != 0
}

/// The largest demand of the channels assigned to a fan.
fn ask(keeper: &Keeper, fan: usize) -> i32 {
    let assigned = keeper.assigned(fan).iter();
    let demands = assigned.map(|&channel| keeper.demand(channel, fan));
    demands.max().unwrap_or(0)
}

/// The keeper with this channel mended.
fn sound(keeper: &Keeper, channel: usize) -> Keeper {
    let mut mended = keeper.clone();
    mended.take(second_event(&[DIODE, channel as i32, 0, 0]));
    mended
}

/// Whether a period of the fan brings it nearer to 240.
fn ramps_up(step: &Step, fan: usize) -> bool {
    let before = step.old.why(fan as i32 + 1);
    let up = matches!(
        before,
        Ok(Reason::Ramp {
            to_go: 1..,
            target: FULL
        })
    );
    up && step.done(PERIOD) && step.event[1] == fan as i32 + 1
}
