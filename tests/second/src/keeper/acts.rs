//! What an accepted event does.

use super::{Event, Keeper, Kind};
use crate::table::*;

impl Keeper {
    // only a read returns data
    pub(super) fn act(&mut self, e: Event) -> u8 {
        match e.kind {
            Kind::Power => self.power(e.who, e.arg == 1, e.val == 1),
            Kind::Write => self.write(e.arg as usize, e.val as u8),
            Kind::Point => self.pointer = e.arg as usize,
            Kind::Read => return self.read(),
            Kind::Sample => self.sample(e.who as usize, e.val),
            Kind::Tach => self.tach(e.who as usize - 1, e.val as u8),
            Kind::Pin => self.pin(e.val == 0),
            Kind::Clock => {
                self.count_down();
                self.count_clock();
            }
            Kind::Period => {}
            Kind::Alert => self.alert(),
            Kind::Diode => self.diode(e.who as usize, e.val == 1),
        }
        0
    }

    // "Power always starts afresh"; bit 5 of a status register: T-05
    pub(super) fn power(&mut self, address: i32, error_1: bool, error_2: bool) {
        *self = Keeper::new();
        self.powered = true;
        self.address = address;
        self.regs = reset_bytes();
        self.diode(1, error_1);
        self.diode(2, error_2);
    }

    // temperatures 9; errors found in service stay too, and the stamp of T-07
    pub(super) fn software_reset(&mut self) {
        let pin_low = self.pin_low;
        let stamp = self.stamp;
        let error_1 = self.diode_error(1);
        let error_2 = self.diode_error(2);
        self.power(self.address, error_1, error_2);
        self.pin_low = pin_low;
        self.pointer = CONFIG_2;
        self.keep_stamp(stamp);
    }

    // "A write that is done sets the pointer too"
    pub(super) fn write(&mut self, register: usize, byte: u8) {
        if register == CONFIG_2 && byte & 0x80 != 0 {
            self.software_reset();
            return;
        }
        let mask = write_mask(register);
        self.regs[register] = (self.regs[register] & !mask) | (byte & mask);
        self.pointer = register;
        if register == CONFIG_2 {
            self.drop_disabled();
        }
    }

    // temperatures 7; tach counts: clearing the tach bit ends the run
    pub(super) fn drop_disabled(&mut self) {
        for channel in 0..3 {
            if !self.channel_enabled(channel) {
                for (register, bit) in status_places(channel) {
                    self.put_bit(register, bit, false);
                }
            }
        }
        for fan in 0..2 {
            if !self.tach_enabled(fan) {
                self.failures[fan] = 0;
            }
        }
    }

    // temperatures 5: a read clears no diode error
    pub(super) fn read(&mut self) -> u8 {
        let byte = self.regs[self.pointer];
        if self.pointer == STATUS_1 || self.pointer == STATUS_2 {
            self.regs[self.pointer] &= 0x20;
        }
        byte
    }
}
