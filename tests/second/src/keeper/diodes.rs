//! T-05: the diode of a remote channel in error, which power or the diode event reports. Bit 5 of 0x02 (remote 1) and of
//! 0x03 (remote 2) is all that is kept of it.

use super::Keeper;
use crate::table::*;

impl Keeper {
    // "an error found or mended in service"; flag, latch and reading stay as they were
    pub(super) fn diode(&mut self, channel: usize, error: bool) {
        let (register, bit) = diode_place(channel);
        self.put_bit(register, bit, error);
    }

    // the local channel has no such diode
    pub fn diode_error(&self, channel: usize) -> bool {
        let (register, bit) = diode_place(channel);
        channel != 0 && self.bit(register, bit)
    }
}

// temperatures 4
fn diode_place(channel: usize) -> (usize, usize) {
    if channel == 1 {
        (STATUS_1, 5)
    } else {
        (STATUS_2, 5)
    }
}
