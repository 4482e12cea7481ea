//! What diode errors meet of T-05, on each remote channel and on each fan, seen by the second program.

mod channels;
mod fans;

use crate::alerts::{is_reset, registers};
use crate::events::second_event;
use crate::table::Table;
use second::keeper::{Keeper, Reply};
use snezhulka::{Event, IMAGE_LENGTH};

const POWER: i32 = 0;
const ALERT: i32 = 9;
const DIODE: i32 = 10;

/// What a diode event may be refused for.
const REFUSALS: [&str; 6] = [
    "diode, answer=1",
    "diode, channel 0",
    "diode, no such channel",
    "diode, arg not 0",
    "diode, val 2",
    "diode, any other val",
];

/// How often each of the cases was met: on the remote channels, on the fans, and by refused diode events.
pub struct Diodes {
    channels: [Table<2>; 2],
    fans: [Table<2>; 2],
    refusals: [u64; REFUSALS.len()],
}

/// An event, its reply, the keeper before and after it, and whether INT was let go before it.
struct Step<'a> {
    event: &'a Event,
    reply: Reply,
    old: &'a Keeper,
    new: &'a Keeper,
    let_go: bool,
}

/// The keeper of a trace, whether it shows INT, whether an alert has let INT go, and which errors were found in service.
struct Course {
    keeper: Keeper,
    int: bool,
    let_go: bool,
    in_service: [bool; 2],
}

impl Diodes {
    /// Nothing seen yet.
    pub fn none() -> Diodes {
        let channels = [&channels::TOLD[..], &channels::STANDING];
        let fans = [&fans::TOLD[..], &fans::STANDING];
        Diodes {
            channels: channels.map(|cases| Table::none(["remote 1", "remote 2"], cases)),
            fans: fans.map(|cases| Table::none(["fan 1", "fan 2"], cases)),
            refusals: [0; REFUSALS.len()],
        }
    }

    /// Counts what the events of a trace meet.
    pub fn count(&mut self, events: &[Event]) {
        let mut course = Course {
            keeper: Keeper::new(),
            int: false,
            let_go: false,
            in_service: [false; 2],
        };
        for event in events {
            self.take(&mut course, event);
        }
    }

    fn take(&mut self, course: &mut Course, event: &Event) {
        let old = course.keeper.clone();
        let reply = course.keeper.take(second_event(event));
        let step = Step {
            event,
            reply,
            old: &old,
            new: &course.keeper,
            let_go: course.let_go,
        };
        if event[0] == DIODE || step.errors() {
            self.count_step(&step, course.in_service);
        }
        (course.let_go, course.int) = (step.lets_go(course.int), reply.int);
        if step.power() {
            course.in_service = [false; 2];
        } else if let Some((channel, error)) = step.told() {
            course.in_service[channel - 1] = error;
        }
    }

    fn count_step(&mut self, step: &Step, in_service: [bool; 2]) {
        for (place, in_service) in in_service.into_iter().enumerate() {
            self.channels[0].count(place, &channels::told(step, place + 1));
            let standing = channels::standing(step, place + 1, in_service);
            self.channels[1].count(place, &standing);
            self.fans[0].count(place, &fans::told(step, place));
            self.fans[1].count(place, &fans::standing(step, place));
        }
        for (count, met) in self.refusals.iter_mut().zip(step.refusals()) {
            *count += u64::from(met);
        }
    }

    pub fn add(&mut self, other: &Diodes) {
        let tables = self.channels.iter_mut().chain(&mut self.fans);
        for (sum, more) in tables.zip(other.channels.iter().chain(&other.fans)) {
            sum.add(more);
        }
        for (sum, more) in self.refusals.iter_mut().zip(other.refusals) {
            *sum += more;
        }
    }

    pub fn print(&self) {
        println!("diode errors on remote 1 and remote 2:");
        self.channels.iter().for_each(Table::print);
        println!("diode errors on fan 1 and fan 2:");
        self.fans.iter().for_each(Table::print);
        for (name, count) in REFUSALS.iter().zip(self.refusals) {
            println!("{name:<28} {count:>10}");
        }
    }

    /// What was never met; nothing if all was.
    pub fn missing(&self) -> Vec<String> {
        let tables = self.channels.iter().chain(&self.fans);
        let mut missing: Vec<String> = tables.flat_map(Table::missing).collect();
        let refusals = REFUSALS.iter().zip(self.refusals);
        let never = refusals.filter(|case| case.1 == 0);
        missing.extend(never.map(|case| case.0.to_string()));
        missing
    }
}

impl Step<'_> {
    fn done(&self, kind: i32) -> bool {
        self.event[0] == kind && self.reply.answer == 0
    }

    fn power(&self) -> bool {
        self.done(POWER)
    }

    fn reset(&self) -> bool {
        is_reset(self.event) && self.reply.answer == 0
    }

    /// The channel of a diode event that is done, and whether it reports an error.
    fn told(&self) -> Option<(usize, bool)> {
        let found = self.event[3] == 1;
        self.done(DIODE).then_some((self.event[1] as usize, found))
    }

    /// Whether a channel is in error before the event or after it.
    fn errors(&self) -> bool {
        let broken = |keeper: &Keeper| keeper.diode_error(1) || keeper.diode_error(2);
        broken(self.old) || broken(self.new)
    }

    fn registers(&self) -> [u8; IMAGE_LENGTH] {
        registers(self.new)
    }

    /// Whether INT is let go after the event; `int` where it was asserted before.
    fn lets_go(&self, int: bool) -> bool {
        let let_go = self.let_go || (int && self.done(ALERT));
        if !let_go {
            return false;
        }
        let (old, new) = (registers(self.old), registers(self.new));
        let rises = new[0x02] & !old[0x02] != 0 || new[0x03] & !old[0x03] != 0;
        !(self.power() || self.reset() || rises)
    }

    fn refusals(&self) -> [bool; REFUSALS.len()] {
        let &[kind, who, arg, val] = self.event;
        let refused = |answer| kind == DIODE && self.reply.answer == answer;
        [
            refused(1),
            refused(3) && who == 0,
            refused(3) && who != 0,
            refused(6) && arg != 0 && (0..=1).contains(&val),
            refused(6) && arg == 0 && val == 2,
            refused(6) && arg == 0 && val != 2,
        ]
    }
}

#[cfg(test)]
mod tests;
