//! Steps that find and mend diode errors. An error that stands hides much else, so it is mended before long.

use super::{any_number, Guide};

impl Guide<'_> {
    /// A diode event; what it reports is kept where it is done.
    fn add_diode(&mut self, who: i32, arg: i32, val: i32) {
        if let (1..=2, 0, 0..=1) = (who, arg, val) {
            self.broken[who as usize] = val == 1;
        }
        self.text.add("diode", who, arg, val);
    }

    fn mend(&mut self, channel: usize) {
        self.add_diode(channel as i32, 0, 0);
    }

    /// An error found or mended, now and then reported once more; a few events that are refused.
    pub(super) fn diode(&mut self) {
        if self.random.percent(8) {
            return self.odd_diode();
        }
        let channel = self.random.pick(&[1, 2]);
        let found = self.broken[channel] == self.random.percent(12);
        self.add_diode(channel as i32, 0, i32::from(found));
        if found {
            self.after_error(channel);
        }
    }

    fn odd_diode(&mut self) {
        let number = any_number(self.random);
        let (who, arg, val) = self.random.pick(&[
            (0, 0, 1),
            (3, 0, 1),
            (number, 0, 1),
            (1, 1, 1),
            (2, number, 0),
            (1, 0, 2),
            (2, 0, -1),
            (2, 0, number),
        ]);
        self.add_diode(who, arg, val);
    }

    /// What shows that an error stands.
    fn after_error(&mut self, channel: usize) {
        match self.random.weighted(&[6, 4, 5, 3, 2, 2, 3]) {
            0 => self.add_sample(channel, self.samples[channel]),
            1 => self.run_on(),
            2 => {
                self.run_on();
                self.mend(channel);
            }
            3 => self.collect(),
            4 => self.toggle_channel(),
            5 => self.write_any(),
            _ => {}
        }
    }

    /// Spin-ups of two seconds end, and a filtered fan comes nearer to its target.
    fn run_on(&mut self) {
        self.text
            .add_times(self.random.pick(&[0, 20]), "clock", 0, 0, 0);
        let fan = self.random.between(1, 2);
        self.text
            .add_times(self.random.pick(&[1, 2, 20]), "period", fan, 0, 0);
    }

    /// An error found while INT may be let go, every other time on a channel that is not enabled.
    pub(super) fn diode_after_alert(&mut self) {
        let channel = self.random.pick(&[1, 2]);
        let disabled = self.random.percent(50);
        if disabled {
            self.write(0x01, 0x7f & !(0x10 << channel));
        }
        self.add_diode(channel as i32, 0, 1);
        if disabled && self.random.percent(70) {
            self.write(0x01, 0x7f);
        }
        if self.random.percent(50) {
            self.mend(channel);
        }
    }

    /// Each error that power reports is mended soon, more often than not.
    pub(super) fn after_power(&mut self, errors: [i32; 2]) {
        for (channel, error) in [1, 2].into_iter().zip(errors) {
            self.broken[channel] = error == 1;
            if error == 1 && self.random.percent(60) {
                self.mend(channel);
            }
        }
    }

    /// Now and then before a step: what is broken is mended.
    pub(super) fn mend_some(&mut self) {
        for channel in [1, 2] {
            if self.broken[channel] && self.random.percent(10) {
                self.mend(channel);
            }
        }
    }
}
