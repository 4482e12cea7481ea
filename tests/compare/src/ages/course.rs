//! A trace as its ages see it, by the second program.

use crate::alerts::is_reset;
use crate::events::second_event;
use second::keeper::{Keeper, Reply};
use snezhulka::Event;

pub const POWER: i32 = 0;
pub const TACH: i32 = 5;
pub const CLOCK: i32 = 7;
pub const PERIOD: i32 = 8;

/// What may be met beside the fans.
pub const BESIDE: [&str; 9] = [
    "before power",
    "clock, answer=1",
    "clock, answer=6",
    "refused power, stamp above 0",
    "refused reset, stamp above 0",
    "stamp 65,535",
    "stamp back at 0",
    "ages alike",
    "ages that differ",
];

/// The keeper; whether it has had power; all accepted clock events since power; and of each fan the duty, whether it has
/// started since power or reset, and all accepted clock events since its stamp was set.
pub struct Course {
    keeper: Keeper,
    powered: bool,
    total: u64,
    duty: [i32; 2],
    started: [bool; 2],
    clocks: [u64; 2],
}

/// An event, its reply, the keeper before and after it; of each fan the duty before it and whether it had started; and
/// whether there is power and the clock events, with this event.
pub struct Step<'a> {
    pub event: &'a Event,
    pub reply: Reply,
    pub old: &'a Keeper,
    pub new: &'a Keeper,
    pub powered: bool,
    pub total: u64,
    pub duty: [i32; 2],
    pub started: [bool; 2],
    pub clocks: [u64; 2],
}

impl Course {
    /// Before the first event.
    pub fn new() -> Course {
        Course {
            keeper: Keeper::new(),
            powered: false,
            total: 0,
            duty: [0; 2],
            started: [false; 2],
            clocks: [0; 2],
        }
    }

    /// Takes an event, and lets its step be seen.
    pub fn take(&mut self, event: &Event, see: &mut dyn FnMut(&Step)) {
        let old = self.keeper.clone();
        let reply = self.keeper.take(second_event(event));
        let mut step = Step {
            event,
            reply,
            old: &old,
            new: &self.keeper,
            powered: self.powered,
            total: self.total,
            duty: self.duty,
            started: self.started,
            clocks: self.clocks,
        };
        step.count_clocks();
        see(&step);
        (self.powered, self.total) = (step.powered, step.total);
        (self.clocks, self.duty) = (step.clocks, reply.duty);
        for fan in 0..2 {
            let kept = self.started[fan] && !step.afresh();
            self.started[fan] = kept || reply.duty[fan] > 0;
        }
    }
}

impl Step<'_> {
    fn count_clocks(&mut self) {
        let clock = u64::from(self.done(CLOCK));
        self.powered |= self.power();
        self.total = if self.power() { 0 } else { self.total + clock };
        for fan in 0..2 {
            let set = self.afresh() || self.starts(fan);
            self.clocks[fan] = if set { 0 } else { self.clocks[fan] + clock };
        }
    }

    pub fn done(&self, kind: i32) -> bool {
        self.event[0] == kind && self.reply.answer == 0
    }

    pub fn power(&self) -> bool {
        self.done(POWER)
    }

    pub fn reset(&self) -> bool {
        is_reset(self.event) && self.reply.answer == 0
    }

    /// Power and reset, before which duties count as 0.
    pub fn afresh(&self) -> bool {
        self.power() || self.reset()
    }

    /// Whether the duty of a fan goes from 0 to more, but by power or reset.
    pub fn starts(&self, fan: usize) -> bool {
        !self.afresh() && self.duty[fan] == 0 && self.reply.duty[fan] > 0
    }

    /// Which of the cases beside the fans it meets.
    pub fn beside(&self) -> [bool; BESIDE.len()] {
        let clock = |answer| self.event[0] == CLOCK && self.reply.answer == answer;
        let (stamp, ages) = (self.new.stamp(), [0, 1].map(|fan| self.new.age(fan)));
        let refused = self.reply.answer != 0 && stamp > 0;
        [
            !self.powered,
            clock(1),
            clock(6),
            refused && self.event[0] == POWER,
            refused && is_reset(self.event),
            stamp == 65_535,
            clock(0) && stamp == 0,
            ages[0] == ages[1],
            ages[0] != ages[1],
        ]
    }
}
