//! A trace as its panels see it: where each count and each reading comes from.

use crate::alerts::is_reset;
use crate::events::second_event;
use second::keeper::{Keeper, Panel, Speed};
use snezhulka::Event;

const POWER: i32 = 0;
const WRITE: i32 = 1;
const SAMPLE: i32 = 4;
const TACH: i32 = 5;

pub const FAN: [&str; 20] = [
    "not measured",
    "not measured, by a tach",
    "not measured, by a write",
    "stalled",
    "stalled, by a tach",
    "stalled, by a write",
    "speed, divisor 1",
    "speed, divisor 2",
    "speed, divisor 4",
    "speed, divisor 8",
    "speed, by a tach",
    "speed, by a write",
    "speed, whole",
    "speed, not whole",
    "speed, count 1",
    "speed, count 254",
    "speed, divisor since changed",
    "speed, other fan's differs",
    "speed, duty 0",
    "speed, after a refusal",
];

pub const CHANNEL: [&str; 8] = [
    "0 degrees",
    "below 0, whole tenths",
    "below 0, no whole tenths",
    "above 0, whole tenths",
    "above 0, no whole tenths",
    "the lowest",
    "the highest",
    "not as sampled",
];

pub const REMOTE: [&str; 3] = [
    "in error, not 0",
    "in error, no whole tenths",
    "in error, sample refused",
];

/// What put the byte into a fan's speed register, with the divisor that it met.
#[derive(Clone, Copy)]
struct Count {
    by: i32,
    divisor: i32,
}

/// The second program's keeper, the last event with its answer, both duties, and what counts and readings come from.
#[derive(Clone)]
pub struct Course {
    pub keeper: Keeper,
    last: Event,
    answer: u8,
    duty: [i32; 2],
    counts: [Option<Count>; 2],
    samples: [i32; 3],
}

impl Course {
    /// Before the first event.
    pub fn new() -> Course {
        Course {
            keeper: Keeper::new(),
            last: [0; 4],
            answer: 0,
            duty: [0; 2],
            counts: [None; 2],
            samples: [0; 3],
        }
    }

    pub fn take_all(&mut self, events: &[Event]) {
        for event in events {
            self.take(event);
        }
    }

    fn take(&mut self, event: &Event) {
        let reply = self.keeper.take(second_event(event));
        (self.last, self.answer, self.duty) = (*event, reply.answer, reply.duty);
        if self.answer == 0 {
            self.follow(event);
        }
    }

    /// Where an event that is done puts a count or a reading.
    fn follow(&mut self, event: &Event) {
        match *event {
            [WRITE, _, register @ 0x08..=0x09, _] => self.put(register as usize - 0x08, WRITE),
            [TACH, fan, ..] => self.put(fan as usize - 1, TACH),
            [SAMPLE, channel, _, sample] => self.samples[channel as usize] = sample,
            [kind, ..] if kind == POWER || is_reset(event) => {
                (self.counts, self.samples) = ([None; 2], [0; 3]);
            }
            _ => {}
        }
    }

    fn put(&mut self, fan: usize, by: i32) {
        let divisor = self.keeper.range_divisor(fan);
        self.counts[fan] = Some(Count { by, divisor });
    }

    /// Which of its cases a fan meets on the panel.
    pub fn fan(&self, fan: usize, panel: &Panel) -> [bool; FAN.len()] {
        let speed = panel.speeds[fan];
        let (none, stalled) = (speed == Speed::NotMeasured, speed == Speed::Stalled);
        let turning = !none && !stalled;
        let (count, divisor) = (self.keeper.count(fan), self.keeper.range_divisor(fan));
        let by = |kind| self.counts[fan].is_some_and(|count| count.by == kind);
        let changed = self.counts[fan].is_some_and(|count| count.divisor != divisor);
        let whole = matches!(speed, Speed::Turning(speed) if speed.fract() == 0.0);
        [
            none,
            none && by(TACH),
            none && by(WRITE),
            stalled,
            stalled && by(TACH),
            stalled && by(WRITE),
            turning && divisor == 1,
            turning && divisor == 2,
            turning && divisor == 4,
            turning && divisor == 8,
            turning && by(TACH),
            turning && by(WRITE),
            turning && whole,
            turning && !whole,
            count == 1,
            count == 254,
            turning && changed,
            turning && self.keeper.range_divisor(1 - fan) != divisor,
            turning && self.duty[fan] == 0,
            turning && self.answer != 0,
        ]
    }

    /// Which of its cases a channel meets.
    pub fn channel(&self, channel: usize) -> [bool; CHANNEL.len()] {
        let reading = self.keeper.reading(channel);
        let (below, above) = (reading < 0, reading > 0);
        let highest = if channel == 0 { 1022 } else { 1023 };
        [
            reading == 0,
            below && whole_tenths(reading),
            below && !whole_tenths(reading),
            above && whole_tenths(reading),
            above && !whole_tenths(reading),
            reading == -1024,
            reading == highest,
            reading != self.samples[channel],
        ]
    }

    /// Which of those of a remote channel, whose diode may be in error.
    pub fn remote(&self, channel: usize) -> [bool; REMOTE.len()] {
        let (reading, error) = (
            self.keeper.reading(channel),
            self.keeper.diode_error(channel),
        );
        let refused = self.answer == 13 && self.last[1] == channel as i32;
        [
            error && reading != 0,
            error && !whole_tenths(reading),
            error && reading != 0 && refused,
        ]
    }
}

/// Whether so many eighths of a degree are a whole number of tenths.
fn whole_tenths(reading: i32) -> bool {
    10 * reading % 8 == 0
}
