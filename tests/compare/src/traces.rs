//! Random trace texts in four styles.

mod damage;
mod guided;
mod length;

use crate::random::Random;
use std::io::Write;

/// The longest trace text that is taken, in bytes.
pub const LONGEST_TEXT: usize = 65_536;

const KINDS: [&str; 11] = [
    "power", "write", "point", "read", "sample", "tach", "pin", "clock", "period", "alert", "diode",
];

/// Every register address of the data sheet.
const REGISTERS: [i32; 35] = [
    0x00, 0x01, 0x02, 0x03, 0x06, 0x07, 0x08, 0x09, 0x0a, 0x0b, 0x0c, 0x0d, 0x0e, 0x0f, 0x10, 0x11,
    0x14, 0x15, 0x16, 0x18, 0x19, 0x1a, 0x1c, 0x1d, 0x1e, 0x20, 0x21, 0x22, 0x23, 0x24, 0x25, 0x26,
    0x3d, 0x3e, 0x3f,
];

/// Trace text that never grows past the longest text: an event without room is left out.
struct Text {
    bytes: Vec<u8>,
}

impl Text {
    fn new() -> Text {
        Text { bytes: Vec::new() }
    }

    fn add(&mut self, kind: &str, who: i32, arg: i32, val: i32) {
        let before = self.bytes.len();
        write!(self.bytes, "kind={kind}\nwho={who}\narg={arg}\nval={val}\n")
            .expect("a vector takes every byte");
        if self.bytes.len() > LONGEST_TEXT {
            self.bytes.truncate(before);
        }
    }

    fn add_times(&mut self, times: usize, kind: &str, who: i32, arg: i32, val: i32) {
        for _ in 0..times {
            self.add(kind, who, arg, val);
        }
    }
}

/// Trace number `index` of the run with this seed.
pub fn trace(seed: u64, index: u64) -> Vec<u8> {
    let mut random = Random::new(seed, index);
    match index % 20 {
        0..=11 => guided::guided(&mut random, 600),
        12..=14 => unguided(&mut random, 300),
        15..=18 => damage::damaged(&mut random),
        _ => length::near_the_longest(&mut random),
    }
}

/// Any signed 32-bit number, the telling ones more often.
fn any_number(random: &mut Random) -> i32 {
    match random.below(4) {
        0 => random.between(i32::MIN, i32::MAX),
        1 => random.between(-300, 300),
        _ => random.pick(&[
            0,
            1,
            2,
            44,
            45,
            255,
            256,
            -1,
            1023,
            1024,
            -1024,
            -1025,
            i32::MAX,
            i32::MIN,
        ]),
    }
}

/// Up to `most` events of any kind with any numbers, perhaps none.
fn unguided(random: &mut Random, most: usize) -> Vec<u8> {
    let mut text = Text::new();
    for _ in 0..random.below(most + 1) {
        let kind = random.pick(&KINDS);
        let who = match random.below(3) {
            0 => any_number(random),
            1 => random.pick(&[44, 44, 45, 46]),
            _ => random.between(0, 3),
        };
        let arg = match random.below(6) {
            0 => any_number(random),
            1 => random.pick(&REGISTERS),
            2 => random.between(0, 69),
            _ => random.pick(&[0, 0, 1]),
        };
        let val = match random.below(5) {
            0 => any_number(random),
            1 => random.between(0, 255),
            _ => random.pick(&[0, 0, 1]),
        };
        text.add(kind, who, arg, val);
    }
    text.bytes
}
