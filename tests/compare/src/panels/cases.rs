//! What the panels that were asked for have met: on each fan, on each channel, and where they were refused.

use super::asked::{asked, is_power, Asked};
use super::course::{Course, CHANNEL, FAN, REMOTE};
use super::refusals::{self, Call};
use super::ENOUGH;
use crate::table::Table;
use snezhulka::Event;

const REFUSALS: [&str; 7] = [
    "panel, answer=1",
    "panel, answer=10",
    "panel, answer=10 before 1",
    "panel, answer=11, numbers",
    "panel, answer=11, room",
    "panel, answer=11 before 10",
    "panel, answer=11 before 1",
];

/// How many panels were given, how often each of the cases was met, and how often each short room was tried.
pub struct Panels {
    given: u64,
    pub(super) fans: Table<2>,
    pub(super) channels: Table<3>,
    pub(super) remotes: Table<2>,
    refusals: [u64; REFUSALS.len()],
    pub(super) rooms: Vec<u64>,
}

impl Panels {
    /// Nothing seen yet.
    pub fn none() -> Panels {
        Panels {
            given: 0,
            fans: Table::none(["panel, fan 1", "panel, fan 2"], &FAN),
            channels: Table::none(
                ["panel, local", "panel, remote 1", "panel, remote 2"],
                &CHANNEL,
            ),
            remotes: Table::none(["panel, remote 1", "panel, remote 2"], &REMOTE),
            refusals: [0; REFUSALS.len()],
            rooms: vec![0; refusals::short_rooms().len()],
        }
    }

    /// Counts what the panels of a trace meet where they are asked for, and the calls that are refused.
    pub fn count(&mut self, events: &[Event], index: u64) {
        let mut course = Course::new();
        let mut taken = 0;
        for Asked { count, more } in asked(events, index) {
            course.take_all(&events[taken..count]);
            taken = count;
            let mut after = course.clone();
            after.take_all(&more);
            self.count_panel(&after);
        }
        for call in refusals::calls(events, index) {
            self.count_refusal(&call);
        }
    }

    /// Counts what the panel after the last of these events meets.
    #[cfg(test)]
    pub fn count_after(&mut self, events: &[Event]) {
        let mut course = Course::new();
        course.take_all(events);
        self.count_panel(&course);
    }

    fn count_panel(&mut self, course: &Course) {
        let Ok(panel) = course.keeper.panel() else {
            self.refusals[0] += 1;
            return;
        };
        self.given += 1;
        for fan in 0..2 {
            self.fans.count(fan, &course.fan(fan, &panel));
            self.remotes.count(fan, &course.remote(fan + 1));
        }
        for channel in 0..3 {
            self.channels.count(channel, &course.channel(channel));
        }
    }

    fn count_refusal(&mut self, call: &Call) {
        let (unpowered, eleven) = (!powered(&call.numbers), call.number == 11);
        let met = [
            false,
            call.number == 10,
            call.number == 10 && unpowered,
            !call.numbers.len().is_multiple_of(4),
            !ENOUGH.contains(&call.room),
            eleven && has_no_kind(&call.numbers),
            eleven && unpowered,
        ];
        for (count, met) in self.refusals.iter_mut().zip(met) {
            *count += u64::from(met);
        }
        let place = refusals::short_rooms()
            .iter()
            .position(|room| *room == call.room);
        if let Some(place) = place {
            self.rooms[place] += 1;
        }
    }

    pub fn add(&mut self, other: &Panels) {
        self.given += other.given;
        self.fans.add(&other.fans);
        self.channels.add(&other.channels);
        self.remotes.add(&other.remotes);
        let sums = self.refusals.iter_mut().chain(&mut self.rooms);
        for (sum, more) in sums.zip(other.refusals.iter().chain(&other.rooms)) {
            *sum += more;
        }
    }

    pub fn print(&self) {
        println!("{} panels, fan 1 and fan 2:", self.given);
        self.fans.print();
        println!("panels, local, remote 1 and remote 2:");
        self.channels.print();
        println!("panels, remote 1 and remote 2:");
        self.remotes.print();
        for (name, count) in REFUSALS.iter().zip(self.refusals) {
            println!("{name:<28} {count:>10}");
        }
    }

    /// What was never met; nothing if all was.
    pub fn missing(&self) -> Vec<String> {
        let mut missing = self.fans.missing();
        missing.extend(self.channels.missing());
        missing.extend(self.remotes.missing());
        for (name, count) in REFUSALS.iter().zip(self.refusals) {
            missing.extend((count == 0).then(|| name.to_string()));
        }
        for (room, count) in refusals::short_rooms().iter().zip(&self.rooms) {
            missing.extend((*count == 0).then(|| format!("a panel with room for {room:?}")));
        }
        missing
    }
}

fn powered(numbers: &[i32]) -> bool {
    numbers.chunks_exact(4).any(is_power)
}

fn has_no_kind(numbers: &[i32]) -> bool {
    let mut events = numbers.chunks_exact(4);
    events.any(|event| !(0..=10).contains(&event[0]))
}
