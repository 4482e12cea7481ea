//! The reply numbers: the lowest that applies.

use super::{Event, Keeper, Kind};
use crate::table::*;

impl Keeper {
    // the lowest number that applies
    pub(super) fn refusal(&self, e: Event) -> u8 {
        if e.kind != Kind::Power && !self.powered {
            return 1;
        }
        match e.kind {
            Kind::Power => {
                let bad = !(44..=46).contains(&e.who) || !bit_value(e.arg) || !bit_value(e.val);
                refuse_if(bad, 6)
            }
            Kind::Write | Kind::Point | Kind::Read | Kind::Alert if e.who != self.address => 2,
            Kind::Write => refuse_write(e.arg, e.val),
            Kind::Point if !exists(e.arg) => 4,
            Kind::Point => refuse_if(e.val != 0, 6),
            Kind::Read | Kind::Alert => refuse_if(e.arg != 0 || e.val != 0, 6),
            Kind::Sample => self.refuse_sample(e),
            Kind::Tach => self.refuse_tach(e),
            Kind::Pin => refuse_if(e.who != 0 || e.arg != 0 || !bit_value(e.val), 6),
            Kind::Clock => refuse_if(e.who != 0 || e.arg != 0 || e.val != 0, 6),
            Kind::Period if !fan_exists(e.who) => 3,
            Kind::Period => refuse_if(e.arg != 0 || e.val != 0, 6),
            Kind::Diode if !remote_exists(e.who) => 3,
            Kind::Diode => refuse_if(e.arg != 0 || !bit_value(e.val), 6),
        }
    }

    // replies 3, 6, 8, 9, and 13 of T-05: a sample of a channel in error
    pub(super) fn refuse_sample(&self, e: Event) -> u8 {
        if !(0..=2).contains(&e.who) {
            3
        } else if e.arg != 0 || !(-1024..=1023).contains(&e.val) {
            6
        } else if e.who == 0 && e.val % 2 != 0 {
            8
        } else if !self.monitoring() {
            9
        } else {
            refuse_if(self.diode_error(e.who as usize), 13)
        }
    }

    // replies 3, 6, 9
    pub(super) fn refuse_tach(&self, e: Event) -> u8 {
        if !fan_exists(e.who) {
            3
        } else if e.arg != 0 || !(0..=255).contains(&e.val) {
            6
        } else {
            refuse_if(!self.monitoring(), 9)
        }
    }

    // reply 9: bit 0 of 0x00
    pub(super) fn monitoring(&self) -> bool {
        self.bit(CONFIG_1, 0)
    }
}

// replies 4, 5, 6, 7
fn refuse_write(register: i32, byte: i32) -> u8 {
    if !exists(register) {
        4
    } else if read_only(register) {
        5
    } else if !(0..=255).contains(&byte) {
        6
    } else {
        refuse_if((0x24..=0x26).contains(&register) && byte & 7 > 4, 7)
    }
}

fn refuse_if(refused: bool, number: u8) -> u8 {
    if refused {
        number
    } else {
        0
    }
}

fn bit_value(number: i32) -> bool {
    number == 0 || number == 1
}

// reply 3, T-05: the local channel has no diode error
fn remote_exists(who: i32) -> bool {
    (1..=2).contains(&who)
}

// reply 3
pub(super) fn fan_exists(who: i32) -> bool {
    who == 1 || who == 2
}
