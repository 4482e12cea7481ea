//! T-02: the alert event lets INT go, and a status bit that rises ends that, as do power and reset, which start afresh.

use super::Keeper;
use crate::table::*;

impl Keeper {
    // with INT not asserted it changes nothing
    pub(super) fn alert(&mut self) {
        self.silenced |= self.int();
    }

    // "until a status bit goes from 0 to 1": one that is set again while it is 1 does not count
    pub(super) fn rearm(&mut self, before: u16) {
        if self.status_bits() & !before != 0 {
            self.silenced = false;
        }
    }

    // 0x02 in the low byte, 0x03 in the high one; every bit counts
    pub(super) fn status_bits(&self) -> u16 {
        u16::from_le_bytes([self.regs[STATUS_1], self.regs[STATUS_2]])
    }
}
