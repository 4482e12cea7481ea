//! T-07: the stamp, and how many clock events ago each fan started.

use super::Keeper;

/// Stamps and ages are numbers modulo this.
const TURN: i32 = 65_536;

impl Keeper {
    // "the number of accepted clock events since power modulo 65,536"
    pub(super) fn count_clock(&mut self) {
        self.stamp = (self.stamp + 1) % TURN;
    }

    // "the stamp at which its duty last went from 0 to more": as it is after the event
    pub(super) fn note_start(&mut self, fan: usize, was: i32) {
        if was == 0 && self.duty[fan] > 0 {
            self.start[fan] = self.stamp;
        }
    }

    // "Software reset keeps the stamp and sets both fan stamps to it"
    pub(super) fn keep_stamp(&mut self, stamp: i32) {
        self.stamp = stamp;
        self.start = [stamp; 2];
    }

    /// 0 before the first accepted power, as the ages are.
    pub fn stamp(&self) -> i32 {
        self.stamp
    }

    /// "their difference modulo 65,536", at duty 0 too.
    pub fn age(&self, fan: usize) -> i32 {
        (self.stamp - self.start[fan]).rem_euclid(TURN)
    }
}
