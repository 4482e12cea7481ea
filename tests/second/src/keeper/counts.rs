//! Samples and tach counts, and the status bits, latches and runs that follow from them.

use super::Keeper;
use crate::table::*;

impl Keeper {
    // T-01: the reading t is the sample with the channel's offset
    pub(super) fn sample(&mut self, channel: usize, sampled: i32) {
        let t = held(channel, sampled + 8 * self.offset(channel));
        self.store_reading(channel, t);
        self.judge_limits(channel, t);
        self.judge_latch(channel, t);
        self.judge_run_flag(channel, t);
    }

    // temperatures 1; Table 22 for the places in 0x06
    pub(super) fn store_reading(&mut self, channel: usize, t: i32) {
        let remainder = t.rem_euclid(8) as u8;
        self.regs[READING + channel] = t.div_euclid(8) as u8;
        let (mask, bits) = match channel {
            0 => (0xC0, (remainder / 2) << 6),
            1 => (0x07, remainder),
            _ => (0x38, remainder << 3),
        };
        self.regs[EXTENDED] = (self.regs[EXTENDED] & !mask) | bits;
    }

    // temperatures 3, high and low bits
    pub(super) fn judge_limits(&mut self, channel: usize, t: i32) {
        let [high, low, _] = status_places(channel);
        if !self.channel_enabled(channel) {
            return;
        }
        if t > 8 * self.limit(HIGH_LIMIT, channel) {
            self.put_bit(high.0, high.1, true);
        }
        if t < 8 * self.limit(LOW_LIMIT, channel) {
            self.put_bit(low.0, low.1, true);
        }
    }

    // temperatures 2; temperatures 3, THERM bit
    pub(super) fn judge_latch(&mut self, channel: usize, t: i32) {
        let limit = self.limit(THERM_LIMIT, channel);
        let was_on = self.latch[channel];
        self.latch[channel] = hysteresis(was_on, t, limit);
        if self.latch[channel] && !was_on && self.channel_enabled(channel) {
            let [_, _, therm] = status_places(channel);
            self.put_bit(therm.0, therm.1, true);
        }
    }

    // duty 1
    pub(super) fn judge_run_flag(&mut self, channel: usize, t: i32) {
        self.run_flag[channel] = hysteresis(self.run_flag[channel], t, self.t_min(channel));
    }

    // tach counts
    pub(super) fn tach(&mut self, fan: usize, count: u8) {
        self.regs[SPEED + fan] = count;
        if !self.tach_enabled(fan) || self.duty[fan] == 0 || self.spin_up[fan] > 0 {
            return;
        }
        if count > self.regs[TACH_LIMIT + fan] {
            self.put_bit(STATUS_1 + fan, 1, true);
            self.spin_up[fan] = self.spin_up_setting(fan);
            self.failures[fan] = (self.failures[fan] + 1).min(5);
        } else {
            self.failures[fan] = 0;
        }
    }

    // temperatures 6
    pub(super) fn pin(&mut self, low: bool) {
        if low && !self.pin_low {
            self.put_bit(STATUS_2, 7, true);
        }
        self.pin_low = low;
    }

    // duty 6, the clock events
    pub(super) fn count_down(&mut self) {
        for fan in 0..2 {
            self.spin_up[fan] = self.spin_up[fan].saturating_sub(1);
        }
    }
}

// T-01: the ends of a reading; a local one stays even
fn held(channel: usize, sum: i32) -> i32 {
    let highest = if channel == 0 { 1022 } else { 1023 };
    sum.clamp(-1024, highest)
}

// temperatures 2, duty 1: on above the edge, off more than 5 degrees below it
fn hysteresis(was_on: bool, t: i32, edge: i32) -> bool {
    if t > 8 * edge {
        true
    } else if t < 8 * (edge - 5) {
        false
    } else {
        was_on
    }
}
