//! The register image.

use super::Keeper;
use crate::table::exists;

impl Keeper {
    // "place a holds what a read of a would return, without its side effect, 0 where there is no register"; 1 before
    // the first accepted power, 11 for a buffer of fewer than 64 bytes, and then no byte changes
    pub fn image(&self, buffer: &mut [u8]) -> u8 {
        if !self.powered {
            return 1;
        }
        if buffer.len() < self.regs.len() {
            return 11;
        }
        for (register, byte) in self.regs.iter().enumerate() {
            buffer[register] = if exists(register as i32) { *byte } else { 0 };
        }
        0
    }
}
