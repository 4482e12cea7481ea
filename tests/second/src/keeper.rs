//! The chip: raw register bytes, and what it decides from them.
//! Channels count 0 local, 1 and 2 remote. Fans count 0 and 1 in here.

mod acts;
mod alerts;
mod counts;
mod diodes;
mod fans;
mod fields;
mod image;
mod panel;
mod reasons;
mod replies;
mod stamps;

pub use panel::{Panel, Speed};
pub use reasons::Reason;

#[derive(Clone, Copy, PartialEq, Eq, Debug)]
pub enum Kind {
    Power,
    Write,
    Point,
    Read,
    Sample,
    Tach,
    Pin,
    Clock,
    Period,
    Alert,
    Diode,
}

#[derive(Clone, Copy, PartialEq, Eq, Debug)]
pub struct Event {
    pub kind: Kind,
    pub who: i32,
    pub arg: i32,
    pub val: i32,
}

/// What a report shows after an event.
#[derive(Clone, Copy, PartialEq, Eq, Debug)]
pub struct Reply {
    pub answer: u8,
    pub data: u8,
    pub int: bool,
    pub therm: bool,
    pub fault: bool,
    pub duty: [i32; 2],
}

#[derive(Clone, PartialEq, Eq, Debug)]
pub struct Keeper {
    powered: bool,
    address: i32,
    pointer: usize,
    pin_low: bool,
    regs: [u8; 64],
    latch: [bool; 3],
    run_flag: [bool; 3],
    failures: [u8; 2],
    spin_up: [u8; 2], // clock events that remain
    alarm: [bool; 2],
    duty: [i32; 2],
    silenced: bool,  // an alert has let INT go
    stamp: i32,      // accepted clock events since power, modulo 65,536
    start: [i32; 2], // the stamp at which a fan last started
}

impl Default for Keeper {
    fn default() -> Self {
        Self::new()
    }
}

impl Keeper {
    // before the first power
    pub fn new() -> Self {
        Keeper {
            powered: false,
            address: 0,
            pointer: 0,
            pin_low: false,
            regs: [0; 64],
            latch: [false; 3],
            run_flag: [false; 3],
            failures: [0; 2],
            spin_up: [0; 2],
            alarm: [false; 2],
            duty: [0; 2],
            silenced: false,
            stamp: 0,
            start: [0; 2],
        }
    }

    // a refusal leaves the whole state as before
    pub fn take(&mut self, e: Event) -> Reply {
        let answer = self.refusal(e);
        let mut data = 0;
        if answer == 0 {
            let before = self.status_bits();
            data = self.act(e);
            self.settle(0, e);
            self.settle(1, e);
            self.rearm(before);
        }
        Reply {
            answer,
            data,
            int: self.int(),
            therm: self.therm(),
            fault: self.fan_fault(),
            duty: self.duty,
        }
    }
}
