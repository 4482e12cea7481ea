//! What every accepted event leaves behind: duty, spin-up and alarm speed of a fan.

use super::{Event, Keeper, Kind};
use crate::table::*;

impl Keeper {
    // duty 5, 6, 7 and T-07, from the registers as they stand after the event
    pub(super) fn settle(&mut self, fan: usize, e: Event) {
        let enabled = self.output_enabled(fan);
        let driven = enabled && (self.target(fan) > 0 || self.overridden());
        if self.duty[fan] == 0 && driven {
            self.spin_up[fan] = self.spin_up_setting(fan);
        }
        let own_period = e.kind == Kind::Period && e.who as usize == fan + 1;
        let was = self.duty[fan];
        self.duty[fan] = self.next_duty(fan, own_period);
        self.note_start(fan, was);
        if self.duty[fan] == 0 {
            self.spin_up[fan] = 0;
        }
        let alarm = enabled && self.overridden();
        if alarm && !self.alarm[fan] {
            self.put_bit(STATUS_1 + fan, 0, true);
        }
        self.alarm[fan] = alarm;
    }

    // duty 5, first that applies
    pub(super) fn next_duty(&self, fan: usize, own_period: bool) -> i32 {
        let target = self.target(fan);
        if !self.output_enabled(fan) {
            0
        } else if self.overridden() {
            240
        } else if target == 0 {
            0
        } else if self.spin_up[fan] > 0 {
            240
        } else if !self.filtered(fan) {
            target
        } else if own_period {
            ramp(self.duty[fan], target, self.ramp_rate())
        } else {
            self.duty[fan]
        }
    }

    // duty 4
    pub(super) fn overridden(&self) -> bool {
        self.pin_low || (self.bit(BEHAVIOR, 7) && self.therm())
    }

    // duty 3
    pub(super) fn target(&self, fan: usize) -> i32 {
        if !self.bit(CONFIG_1, 7) {
            return 16 * self.min_code(fan);
        }
        let assigned = self.assigned(fan);
        let demands = assigned.iter().map(|&channel| self.demand(channel, fan));
        demands.max().unwrap_or(0)
    }

    // duty 3: bits 6:5 of 0x00
    pub fn assigned(&self, fan: usize) -> &'static [usize] {
        match (self.regs[CONFIG_1] >> 5) & 3 {
            0 if fan == 0 => &[1],
            0 => &[2],
            1 => &[1],
            2 => &[2],
            _ => &[0, 1, 2],
        }
    }

    // duty 2; T-05: "while a remote diode is in error, its demand .. is 240 and its run flag has no say"
    pub fn demand(&self, channel: usize, fan: usize) -> i32 {
        if self.diode_error(channel) {
            return 240;
        }
        if !self.run_flag[channel] {
            return 0;
        }
        let above = (self.reading(channel) - 8 * self.t_min(channel)).max(0);
        let range = 5 << (self.regs[CONTROL + channel] & 7);
        (16 * self.min_code(fan) + 20 * above / range).min(240)
    }
}

// duty 5: nearer to the target by the rate, never past it
fn ramp(duty: i32, target: i32, rate: i32) -> i32 {
    if duty < target {
        (duty + rate).min(target)
    } else {
        (duty - rate).max(target)
    }
}
