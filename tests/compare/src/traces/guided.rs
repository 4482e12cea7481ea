//! Traces of a keeper that is set up and used: they reach latches, ramps, spin-ups, faults, resets, alerts and diode
//! errors.

mod diodes;

use super::{any_number, Text, KINDS, REGISTERS};
use crate::random::Random;

/// Bytes of 0x00 with monitoring on, the more telling ones twice.
const MODES: [i32; 9] = [0x11, 0x13, 0x91, 0x93, 0x93, 0xb3, 0xd3, 0xf3, 0xf3];

/// The bit of 0x00 that enables INT.
const INT_ENABLE: i32 = 0x02;

/// What stays the same through one trace; what was last written to 0x00; and on each channel the last sample, what was
/// last written as its offset, and whether its diode is in error.
struct Guide<'a> {
    random: &'a mut Random,
    text: Text,
    address: i32,
    tach_limit: i32,
    failures: usize,
    start: i32,
    swing: i32,
    ends: usize,
    mode: i32,
    samples: [i32; 3],
    offsets: [i32; 3],
    broken: [bool; 3],
}

/// One trace of up to `most` steps, most of them one event, some a few.
pub fn guided(random: &mut Random, most: usize) -> Vec<u8> {
    // Most traces are warm, a few are about an end of the range.
    let start = match random.percent(88) {
        true => random.pick(&[100, 200, 320, 480, 600]),
        false => random.pick(&[960, 960, -960]),
    };
    let mut guide = Guide {
        address: random.pick(&[44, 44, 45, 46]),
        tach_limit: random.pick(&[255, 254, 200]),
        failures: random.pick(&[10, 50, 90, 100]),
        start,
        swing: random.pick(&[10, 40, 150]),
        ends: random.pick(&[0, 4, 25]),
        mode: 0x90,
        samples: [start; 3],
        offsets: [0; 3],
        broken: [false; 3],
        text: Text::new(),
        random,
    };
    guide.power(6);
    if guide.random.percent(8) {
        guide.diode();
    }
    guide.set_up_control();
    guide.set_up_limits();
    guide.set_up_offsets();
    if start > 900 && guide.random.percent(80) {
        guide.set_up_heat();
    }
    let weights = guide.weights();
    for _ in 0..guide.random.below(most) {
        guide.step(&weights);
    }
    guide.text.bytes
}

impl Guide<'_> {
    fn write(&mut self, register: i32, byte: i32) {
        if let 0x0d..=0x0f = register {
            self.offsets[register as usize - 0x0d] = byte;
        }
        if register == 0x00 {
            self.mode = byte;
        }
        self.text.add("write", self.address, register, byte);
    }

    fn power(&mut self, errors: usize) {
        let first = i32::from(self.random.percent(errors));
        let second = i32::from(self.random.percent(errors));
        self.text.add("power", self.address, first, second);
        self.after_power([first, second]);
    }

    fn set_up_control(&mut self) {
        let mode = self.random.pick(&MODES);
        self.write(0x00, mode);
        if self.random.percent(60) {
            let filter = 0x03
                | self.random.pick(&[0, 0x20, 0x40, 0x60])
                | self.random.pick(&[0, 0x10, 0x0c]);
            self.write(0x23, filter);
        }
        if self.random.percent(50) {
            let speeds = self.random.between(0, 255);
            self.write(0x22, speeds);
        }
        for register in [0x20, 0x21] {
            if self.random.percent(60) {
                let spin_up = 0x58 | self.random.between(0, 7);
                self.write(register, spin_up);
            }
        }
    }

    fn set_up_limits(&mut self) {
        for register in [0x24, 0x25, 0x26] {
            if self.random.percent(70) {
                let near = (self.start / 32 + self.random.between(-4, 4)).clamp(0, 31);
                let any = self.random.between(4, 15);
                let range =
                    (self.random.pick(&[near, any]) << 3) | self.random.pick(&[0, 1, 2, 3, 4, 4]);
                self.write(register, range);
            }
        }
        for register in [0x14, 0x15, 0x16, 0x18, 0x19, 0x1a, 0x1c, 0x1d, 0x1e] {
            if self.random.percent(25) {
                let (near, any) = (self.near_limit(), self.random.between(20, 109));
                let limit = self.random.pick(&[near, any]);
                self.write(register, limit);
            }
        }
        if self.random.percent(70) {
            self.write(0x10, self.tach_limit);
            self.write(0x11, self.tach_limit);
        }
    }

    /// A limit so near to the start that an offset decides.
    fn near_limit(&mut self) -> i32 {
        (self.start / 8 + self.random.between(-15, 15)).clamp(-128, 127) & 0xff
    }

    fn set_up_offsets(&mut self) {
        for register in [0x0d, 0x0e, 0x0f] {
            if self.random.percent(50) {
                let byte = self.offset_byte();
                self.write(register, byte);
            }
        }
    }

    /// Lets the demands of hot channels be seen, the local one's above all: no latch drives the fans, and Tmin is high.
    fn set_up_heat(&mut self) {
        self.write(0x00, 0xf3);
        self.write(0x3f, 0x00);
        for (register, least, widest) in [(0x24, 28, 2), (0x25, 30, 4), (0x26, 30, 4)] {
            let range = (self.random.between(least, 31) << 3) | self.random.between(0, widest);
            self.write(register, range);
        }
        if self.random.percent(50) {
            let offset = self.random.between(8, 15);
            self.write(0x0d, offset);
        }
    }

    /// Any byte; minus zero, and those that would be another number as two's complement, more often.
    fn offset_byte(&mut self) -> i32 {
        let any = self.random.between(0, 255);
        self.random.pick(&[
            any, any, any, any, 0x03, 0x0f, 0x7f, 0x80, 0x83, 0x8d, 0x8f, 0xf3, 0xfd,
        ])
    }

    /// How often each step comes, in the order of `step`.
    fn weights(&mut self) -> [usize; 13] {
        [
            self.random.pick(&[20, 60, 120]),
            self.random.pick(&[20, 80]),
            self.random.pick(&[20, 120, 200]),
            self.random.pick(&[0, 20, 80]),
            self.random.pick(&[20, 40]),
            20,
            self.random.pick(&[0, 0, 6]),
            self.random.pick(&[0, 6, 30]),
            self.random.pick(&[0, 0, 1]),
            self.random.pick(&[0, 10, 30]),
            self.random.pick(&[0, 0, 6, 25]),
            self.random.pick(&[0, 0, 4, 15]),
            self.random.pick(&[0, 2]),
        ]
    }

    fn step(&mut self, weights: &[usize]) {
        self.mend_some();
        match self.random.weighted(weights) {
            0 => self.sample(),
            1 => self
                .text
                .add_times(self.random.pick(&[1, 2, 5, 20]), "clock", 0, 0, 0),
            2 => {
                let fan = self.random.between(1, 2);
                self.text
                    .add_times(self.random.pick(&[1, 1, 2, 5]), "period", fan, 0, 0);
            }
            3 => self.tach(),
            4 => self.look(),
            5 => self.text.add("read", self.address, 0, 0),
            6 => self.text.add("pin", 0, 0, self.random.between(0, 1)),
            7 => self.write_any(),
            8 => self.restart(),
            9 => self.offset(),
            10 => self.alert(),
            11 => self.diode(),
            _ => self.odd(),
        }
    }

    fn sample(&mut self) {
        let channel = self.random.below(3);
        if self.offsets[channel] != 0 && self.random.percent(self.ends) {
            let end = self.near_an_end(channel);
            return self.add_sample(channel, end);
        }
        let near = self.samples[channel] + self.random.between(-self.swing, self.swing);
        let mut sample = match self.random.percent(97) {
            true => near.clamp(-1024, 1023),
            false => self.random.between(-1024, 1023),
        };
        if sample.abs() > 900 && self.random.percent(50) {
            sample = self.start;
        }
        self.samples[channel] = sample;
        self.add_sample(channel, sample);
    }

    fn add_sample(&mut self, channel: usize, mut sample: i32) {
        // The local channel takes even numbers only.
        if channel == 0 && self.random.percent(99) {
            sample &= !1;
        }
        self.text.add("sample", channel as i32, 0, sample);
    }

    /// At or near an end of the range, or just beyond it; most often the end that the channel's offset leads beyond.
    fn near_an_end(&mut self, channel: usize) -> i32 {
        let (few, many) = (self.random.between(-1, 3), self.random.between(0, 130));
        let inward = self.random.pick(&[few, many]);
        let subtracts = self.offsets[channel] & 0x80 != 0;
        match subtracts ^ self.random.percent(20) {
            true => -1024 + inward,
            false => 1023 - inward,
        }
    }

    /// Another offset; every other time the last sample follows again, so that nothing but the offset is new.
    fn offset(&mut self) {
        let channel = self.random.below(3);
        let byte = self.offset_byte();
        self.write(0x0d + channel as i32, byte);
        if self.random.percent(50) {
            self.add_sample(channel, self.samples[channel]);
        }
    }

    /// An alert, most often at the own address, and what comes after it.
    fn alert(&mut self) {
        let (other, number) = (self.random.pick(&[12, 44, 45, 46]), any_number(self.random));
        let who = match self.random.percent(90) {
            true => self.address,
            false => self.random.pick(&[other, other, number]),
        };
        let (arg, val) = match self.random.percent(92) {
            true => (0, 0),
            false => self
                .random
                .pick(&[(1, 0), (0, 1), (number, 0), (0, number)]),
        };
        self.text.add("alert", who, arg, val);
        self.after_alert();
    }

    /// What may bring INT back, or must not.
    fn after_alert(&mut self) {
        match self.random.weighted(&[6, 3, 3, 3, 3, 1, 1, 2, 10]) {
            0 => self.sample_again(),
            1 => self.collect(),
            2 => {
                self.collect();
                self.sample_again();
            }
            3 => self.toggle_int(),
            4 => self.toggle_channel(),
            5 => self.restart(),
            6 => self.text.add("pin", 0, 0, self.random.between(0, 1)),
            7 => self.diode_after_alert(),
            _ => {}
        }
    }

    /// The last sample of a channel once more: where it sets a bit, that bit is 1 unless it was read away.
    fn sample_again(&mut self) {
        let channel = self.random.below(3);
        self.add_sample(channel, self.samples[channel]);
    }

    /// Reads one status register or both, and so clears them.
    fn collect(&mut self) {
        for register in self.random.pick(&[&[2][..], &[3], &[2, 3]]) {
            self.text.add("point", self.address, *register, 0);
            self.text.add("read", self.address, 0, 0);
        }
    }

    /// INT disabled and enabled again; now and then a sample between.
    fn toggle_int(&mut self) {
        let mode = self.mode;
        self.write(0x00, mode & !INT_ENABLE);
        if self.random.percent(30) {
            self.sample_again();
        }
        self.write(0x00, mode | INT_ENABLE);
    }

    /// A channel disabled, which clears its bits, and enabled again.
    fn toggle_channel(&mut self) {
        let one_off = 0x7f & !(0x10 << self.random.below(3));
        self.write(0x01, one_off);
        self.write(0x01, 0x7f);
    }

    fn tach(&mut self) {
        let fan = self.random.between(1, 2);
        let count = match self.random.percent(self.failures) {
            true => self
                .random
                .pick(&[255, self.tach_limit + 1, self.tach_limit + 1]),
            false => {
                let any = self.random.between(0, 255);
                self.random.pick(&[self.tach_limit, 0, 100, any])
            }
        };
        // Twenty clock events end a spin-up of two seconds, so that the count is judged.
        self.text
            .add_times(self.random.pick(&[0, 0, 20]), "clock", 0, 0, 0);
        self.text.add("tach", fan, 0, count);
    }

    fn look(&mut self) {
        let any = self.random.pick(&REGISTERS);
        let register = self
            .random
            .pick(&[2, 3, 2, 3, 6, 8, 9, 10, 11, 12, any, any]);
        self.text.add("point", self.address, register, 0);
        self.text
            .add_times(self.random.pick(&[1, 2]), "read", self.address, 0, 0);
    }

    /// Power, or a software reset, some with an error just found; most often monitoring goes on.
    fn restart(&mut self) {
        if self.random.percent(15) {
            self.diode();
        }
        let reset = self.random.between(0x80, 0xff);
        match self.random.percent(50) {
            true => self.power(25),
            false => self.write(0x01, reset),
        }
        if self.random.percent(80) {
            let mode = self.random.pick(&MODES);
            self.write(0x00, mode);
        }
    }

    fn write_any(&mut self) {
        let register = self.random.pick(&REGISTERS);
        let any = self.random.between(0, 255);
        // Bytes that keep the keeper going come more often than others.
        let byte = match register {
            0x00 if self.random.percent(80) => self.random.pick(&MODES),
            0x01 if self.random.percent(90) => {
                let one_off = 0x7f & !(1 << self.random.below(7));
                self.random.pick(&[0x7f, one_off])
            }
            0x0d..=0x0f => self.offset_byte(),
            0x10 | 0x11 if self.random.percent(70) => self.tach_limit,
            0x14..=0x1e if self.random.percent(50) => self.near_limit(),
            0x23 if self.random.percent(70) => any | 0x03,
            0x24..=0x26 if self.random.percent(90) => {
                (any & 0x78) | self.random.pick(&[0, 1, 2, 3, 4, 4, 5])
            }
            0x3f if self.random.percent(50) => any | 0x80,
            _ => any,
        };
        self.write(register, byte);
    }

    fn odd(&mut self) {
        let kind = self.random.pick(&KINDS);
        let (who, arg) = (any_number(self.random), any_number(self.random));
        self.text.add(kind, who, arg, any_number(self.random));
    }
}
