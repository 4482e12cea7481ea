//! What the samples of a trace meet of T-01, seen from its events and their answers alone.

use snezhulka::Event;

const POWER: i32 = 0;
const WRITE: i32 = 1;
const SAMPLE: i32 = 4;

/// What a sample may meet, on each channel.
pub const CASES: [&str; 6] = [
    "offset added",
    "subtracted",
    "minus zero",
    "bits 6:4 given",
    "held below",
    "held above",
];

/// The bytes last written to 0x0D, 0x0E and 0x0F, whether all their bits are stored or not.
pub struct Offsets([i32; 3]);

impl Offsets {
    /// Before the first event.
    pub fn none() -> Offsets {
        Offsets([0; 3])
    }

    /// Takes an event that is done; gives a sample's channel, and which of the cases it meets.
    pub fn take(&mut self, event: &Event) -> Option<(usize, [bool; CASES.len()])> {
        let &[kind, who, arg, val] = event;
        match (kind, arg) {
            (POWER, _) => self.0 = [0; 3],
            (WRITE, 0x01) if val & 0x80 != 0 => self.0 = [0; 3],
            (WRITE, 0x0d..=0x0f) => self.0[arg as usize - 0x0d] = val,
            (SAMPLE, _) => return Some((who as usize, self.met(who as usize, val))),
            _ => {}
        }
        None
    }

    fn met(&self, channel: usize, sample: i32) -> [bool; CASES.len()] {
        let byte = self.0[channel];
        let (degrees, minus) = (byte & 0x0f, byte & 0x80 != 0);
        let sum = sample + if minus { -8 * degrees } else { 8 * degrees };
        [
            degrees > 0 && !minus,
            degrees > 0 && minus,
            degrees == 0 && minus,
            byte & 0x70 != 0,
            sum < -1024,
            sum > if channel == 0 { 1022 } else { 1023 },
        ]
    }
}

#[cfg(test)]
mod tests {
    use super::Offsets;

    /// The cases, as numbers, of the last sample after the writes of these bytes to 0x0E.
    fn met(bytes: &[i32], sample: i32) -> Vec<usize> {
        let mut offsets = Offsets::none();
        for &byte in bytes {
            assert_eq!(offsets.take(&[1, 44, 0x0e, byte]), None);
        }
        let (channel, met) = offsets.take(&[4, 1, 0, sample]).expect("it is a sample");
        assert_eq!(channel, 1);
        (0..met.len()).filter(|&case| met[case]).collect()
    }

    #[test]
    fn a_sample_meets_the_offset_written_last() {
        assert!(met(&[], 0).is_empty());
        assert_eq!(met(&[0x83, 0x03], 0), [0]);
        assert_eq!(met(&[0x03, 0x83], 0), [1]);
        assert_eq!(met(&[0x80], 0), [2]);
        assert_eq!(met(&[0xfd], 0), [1, 3]);
        assert!(met(&[0x80, 0x00], 0).is_empty());
    }

    #[test]
    fn a_sum_is_held_beyond_an_end() {
        assert_eq!(met(&[0x8f], -904), [1]);
        assert_eq!(met(&[0x8f], -905), [1, 4]);
        assert_eq!(met(&[0x0f], 903), [0]);
        assert_eq!(met(&[0x0f], 904), [0, 5]);
        let mut offsets = Offsets::none();
        offsets.take(&[1, 44, 0x0d, 0x01]);
        let (_, met) = offsets.take(&[4, 0, 0, 1014]).expect("it is a sample");
        assert!(!met[5]);
        let (_, met) = offsets.take(&[4, 0, 0, 1016]).expect("it is a sample");
        assert!(met[5]);
    }

    #[test]
    fn power_and_reset_end_an_offset() {
        for event in [[0, 44, 0, 0], [1, 44, 0x01, 0x80]] {
            let mut offsets = Offsets::none();
            offsets.take(&[1, 44, 0x0f, 0x85]);
            offsets.take(&event);
            let (_, met) = offsets.take(&[4, 2, 0, 0]).expect("it is a sample");
            assert_eq!(met, [false; 6]);
        }
    }
}
