//! Pins, and the fields of the register bytes.

use super::Keeper;
use crate::table::*;

impl Keeper {
    // temperatures 8, with T-02: not while an alert has let it go
    pub(super) fn int(&self) -> bool {
        let counted = |status: usize, channel: usize| {
            let mask = if self.channel_enabled(channel) {
                0xFF
            } else {
                0xDF
            };
            self.regs[status] & mask != 0
        };
        !self.silenced && self.bit(CONFIG_1, 1) && (counted(STATUS_1, 1) || counted(STATUS_2, 2))
    }

    // temperatures 2
    pub(super) fn therm(&self) -> bool {
        self.latch[0] || self.latch[1] || self.latch[2]
    }

    // tach counts, FAN_FAULT
    pub(super) fn fan_fault(&self) -> bool {
        self.bit(CONFIG_1, 4) && (self.failures[0] == 5 || self.failures[1] == 5)
    }

    pub(super) fn bit(&self, register: usize, bit: usize) -> bool {
        (self.regs[register] >> bit) & 1 == 1
    }

    pub(super) fn put_bit(&mut self, register: usize, bit: usize, on: bool) {
        if on {
            self.regs[register] |= 1 << bit;
        } else {
            self.regs[register] &= !(1 << bit);
        }
    }

    // Table 19, bits 0 and 1
    pub(super) fn output_enabled(&self, fan: usize) -> bool {
        self.bit(CONFIG_2, fan)
    }

    // Table 19, bits 2 and 3
    pub(super) fn tach_enabled(&self, fan: usize) -> bool {
        self.bit(CONFIG_2, 2 + fan)
    }

    // Table 19, bits 4 to 6
    pub(super) fn channel_enabled(&self, channel: usize) -> bool {
        self.bit(CONFIG_2, 4 + channel)
    }

    // Tables 23 and 24, bits 2:0
    pub(super) fn spin_up_setting(&self, fan: usize) -> u8 {
        SPIN_CLOCKS[(self.regs[SPIN_UP + fan] & 7) as usize]
    }

    // Table 25
    pub(super) fn min_code(&self, fan: usize) -> i32 {
        i32::from((self.regs[MIN_SPEED] >> (4 * fan)) & 0x0F)
    }

    // Table 26, bits 0 and 1
    pub fn filtered(&self, fan: usize) -> bool {
        self.bit(FILTER, fan)
    }

    // Table 26, bits 6:5
    pub(super) fn ramp_rate(&self) -> i32 {
        1 << ((self.regs[FILTER] >> 5) & 3)
    }

    // Tables 27 to 29, bits 7:3, steps of 4 degrees
    pub(super) fn t_min(&self, channel: usize) -> i32 {
        4 * i32::from(self.regs[CONTROL + channel] >> 3)
    }

    // limits are signed whole degrees
    pub(super) fn limit(&self, first: usize, channel: usize) -> i32 {
        i32::from(self.regs[first + 4 * channel] as i8)
    }

    // Tables 31 to 33: whole degrees in bits 3:0, subtracted where bit 7 is 1
    pub(super) fn offset(&self, channel: usize) -> i32 {
        let degrees = i32::from(self.regs[OFFSET + channel] & 0x0F);
        if self.bit(OFFSET + channel, 7) {
            -degrees
        } else {
            degrees
        }
    }

    // temperatures 2
    pub fn latch_on(&self, channel: usize) -> bool {
        self.latch[channel]
    }

    // duty 1
    pub fn flag_on(&self, channel: usize) -> bool {
        self.run_flag[channel]
    }

    // the stored reading in eighths: temperatures 1 read backwards
    pub fn reading(&self, channel: usize) -> i32 {
        let extended = self.regs[EXTENDED];
        let remainder = match channel {
            0 => 2 * (extended >> 6),
            1 => extended & 7,
            _ => (extended >> 3) & 7,
        };
        8 * i32::from(self.regs[READING + channel] as i8) + i32::from(remainder)
    }
}
