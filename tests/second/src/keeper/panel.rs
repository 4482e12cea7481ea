//! T-06: the panel in the wheelhouse, from the registers as they stand.

use super::Keeper;
use crate::table::*;

/// What a fan's speed register says.
#[derive(Clone, Copy, PartialEq, Debug)]
pub enum Speed {
    NotMeasured,
    Stalled,
    Turning(f64), // revolutions a minute
}

/// Degrees of local, remote 1 and remote 2, and the speeds of fan 1 and fan 2.
#[derive(Clone, Copy, PartialEq, Debug)]
pub struct Panel {
    pub degrees: [f64; 3],
    pub speeds: [Speed; 2],
}

impl Keeper {
    /// The panel, or the number of the refusal.
    pub fn panel(&self) -> Result<Panel, u8> {
        if !self.powered {
            return Err(1);
        }
        Ok(Panel {
            degrees: [0, 1, 2].map(|channel| self.degrees(channel)),
            speeds: [0, 1].map(|fan| self.speed(fan)),
        })
    }

    // "the reading over 8, exactly"
    fn degrees(&self, channel: usize) -> f64 {
        f64::from(self.reading(channel)) / 8.0
    }

    // "one rounded division of two whole numbers that lose nothing"
    fn speed(&self, fan: usize) -> Speed {
        match self.count(fan) {
            0 => Speed::NotMeasured,
            255 => Speed::Stalled,
            count => {
                let product = count * self.range_divisor(fan);
                Speed::Turning(f64::from(TICKS_A_MINUTE) / f64::from(product))
            }
        }
    }

    // Table 17: the byte stands there by a measurement or by a write
    pub fn count(&self, fan: usize) -> i32 {
        i32::from(self.regs[SPEED + fan])
    }

    // Tables 23 and 24, bits 7:6
    pub fn range_divisor(&self, fan: usize) -> i32 {
        1 << (self.regs[SPIN_UP + fan] >> 6)
    }
}
