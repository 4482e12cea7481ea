//! What the compared ages have met: on each fan, beside the fans, and by calls with one room or another.

use super::course::{Course, Step, BESIDE};
use super::fans::{self, AFRESH, DUTY, TURN};
use super::rooms::{self, Call};
use super::WIDTH;
use crate::table::Table;
use snezhulka::Event;

/// What a call may meet beside its events.
pub const CALLS: [&str; 6] = [
    "numbers, no whole events",
    "room one short",
    "room shorter",
    "room longer",
    "a kind that is none",
    "a kind that is none, short",
];

/// After how many events ages were compared, and how often each of the cases was met.
pub struct Ages {
    pub(super) events: u64,
    pub(super) fans: [Table<2>; 3],
    pub(super) beside: [u64; BESIDE.len()],
    pub(super) calls: [u64; CALLS.len()],
}

impl Ages {
    /// Nothing seen yet.
    pub fn none() -> Ages {
        let cases = [&DUTY[..], &AFRESH, &TURN];
        Ages {
            events: 0,
            fans: cases.map(|cases| Table::none(["ages, fan 1", "ages, fan 2"], cases)),
            beside: [0; BESIDE.len()],
            calls: [0; CALLS.len()],
        }
    }

    /// Counts what the events of a trace meet, and the calls that go with it.
    pub fn count(&mut self, events: &[Event], index: u64) {
        self.count_list(events);
        for call in rooms::calls(events, index) {
            let met = met(&call);
            add(&mut self.calls, &met.map(u64::from));
        }
    }

    /// Counts what a list of events meets.
    pub fn count_list(&mut self, events: &[Event]) {
        let mut course = Course::new();
        for event in events {
            course.take(event, &mut |step| self.count_step(step));
        }
    }

    fn count_step(&mut self, step: &Step) {
        self.events += 1;
        add(&mut self.beside, &step.beside().map(u64::from));
        if !step.powered {
            return;
        }
        for fan in 0..2 {
            self.fans[0].count(fan, &fans::duty(step, fan));
            self.fans[1].count(fan, &fans::afresh(step, fan));
            self.fans[2].count(fan, &fans::turn(step, fan));
        }
    }

    pub fn add(&mut self, other: &Ages) {
        self.events += other.events;
        for (sum, more) in self.fans.iter_mut().zip(&other.fans) {
            sum.add(more);
        }
        add(&mut self.beside, &other.beside);
        add(&mut self.calls, &other.calls);
    }

    pub fn print(&self) {
        println!("ages after {} events, fan 1 and fan 2:", self.events);
        self.fans.iter().for_each(Table::print);
        for (name, count) in self.counts() {
            println!("{name:<28} {count:>10}");
        }
    }

    fn counts(&self) -> impl Iterator<Item = (&'static str, u64)> {
        let beside = BESIDE.into_iter().zip(self.beside);
        beside.chain(CALLS.into_iter().zip(self.calls))
    }

    /// What was never met; nothing if all was.
    pub fn missing(&self) -> Vec<String> {
        let mut missing: Vec<String> = self.fans.iter().flat_map(Table::missing).collect();
        let never = self.counts().filter(|case| case.1 == 0);
        missing.extend(never.map(|case| format!("ages: {}", case.0)));
        missing
    }
}

fn add(sums: &mut [u64], more: &[u64]) {
    for (sum, more) in sums.iter_mut().zip(more) {
        *sum += more;
    }
}

/// Which of the cases a call meets.
fn met(call: &Call) -> [bool; CALLS.len()] {
    let (whole, odd) = (call.is_whole(), call.ends_early());
    let room = WIDTH * call.events();
    let short = whole && call.length < room;
    [
        !whole,
        short && call.length + 1 == room,
        short && call.length + 1 < room,
        whole && call.length > room,
        whole && odd && !short,
        odd && short,
    ]
}
