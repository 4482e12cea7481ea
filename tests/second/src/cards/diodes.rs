//! Cards for T-05: a broken diode is not a cool box.

use super::{lines, report, Bench};
use crate::keeper::{Keeper, Kind, Reason, Reply};

impl Bench {
    fn diode(&mut self, channel: i32, error: i32) -> Reply {
        let reply = self.ev(Kind::Diode, channel, 0, error);
        assert_eq!((reply.answer, reply.data), (0, 0));
        reply
    }

    // powered at 44 with these errors, and nothing written
    fn powered(error_1: i32, error_2: i32) -> (Self, Reply) {
        let mut bench = Bench(Keeper::new());
        let reply = bench.ev(Kind::Power, 44, error_1, error_2);
        (bench, reply)
    }

    fn reasons(&self) -> [Reason; 2] {
        [1, 2].map(|fan| self.0.why(fan).unwrap())
    }

    fn periods(&mut self, n: usize) -> i32 {
        let duties = (0..n).map(|_| self.ev(Kind::Period, 1, 0, 0).duty[0]);
        duties.last().unwrap()
    }

    fn answer(&mut self, channel: i32, sample: i32) -> u8 {
        let before = self.0.clone();
        let reply = self.ev(Kind::Sample, channel, 0, sample);
        assert!(reply.answer == 0 || self.0 == before);
        reply.answer
    }
}

#[test]
fn power_with_an_error_acts_at_once() {
    for (errors, duty) in [
        ([0, 0], [0, 0]),
        ([1, 0], [240, 0]),
        ([0, 1], [0, 240]),
        ([1, 1], [240, 240]),
    ] {
        let (mut bench, reply) = Bench::powered(errors[0], errors[1]);
        assert_eq!((reply.duty, reply.int), (duty, false));
        let spins = duty.map(|duty| match duty {
            0 => Reason::ZeroTarget,
            _ => Reason::SpinUp(20),
        });
        assert_eq!(bench.reasons(), spins);
        assert_eq!(bench.clocks(20).duty, duty);
        let bytes = errors.map(|error| 0x20 * error as u8);
        assert_eq!([bench.read(0x02), bench.read(0x03)], bytes);
    }
}

#[test]
fn an_error_in_text() {
    let text = lines(&["diode 1 0 1", "power 44 0 0", "diode 2 0 1", "diode 0 0 1"]);
    let block = |answer, duty| {
        format!("answer={answer}\ndata=0\nint=0\ntherm=0\nfault=0\nduty1=0\nduty2={duty}\n")
    };
    let blocks = [block(1, 0), block(0, 0), block(0, 240), block(3, 240)];
    assert_eq!(report(&text), blocks.concat());
}

#[test]
fn refusals_of_a_diode_event() {
    let cards = [
        (0, 0, 1, 3),
        (3, 1, 2, 3),
        (-1, 0, 0, 3),
        (257, 0, 1, 3),
        (i32::MIN, 0, 1, 3),
        (i32::MAX, 0, 1, 3),
        (1, 1, 1, 6),
        (2, -1, 0, 6),
        (1, 0, 2, 6),
        (2, 0, -1, 6),
    ];
    let mut bench = Bench(Keeper::new());
    assert_eq!(bench.ev(Kind::Diode, 1, 0, 1).answer, 1);
    assert_eq!(bench.ev(Kind::Diode, 3, 1, 2).answer, 1);
    bench.ev(Kind::Power, 44, 0, 1);
    let before = bench.0.clone();
    for (who, arg, val, answer) in cards {
        assert_eq!(bench.ev(Kind::Diode, who, arg, val).answer, answer);
        assert!(bench.0 == before);
    }
}

#[test]
fn found_and_mended_while_monitoring_is_off() {
    let (mut bench, _) = Bench::powered(0, 0);
    assert_eq!(bench.diode(2, 1).duty, [0, 240]);
    assert_eq!((bench.read(0x02), bench.read(0x03)), (0, 0x20));
    assert_eq!(bench.diode(1, 1).duty, [240, 240]);
    assert_eq!(bench.diode(2, 0).duty, [240, 0]);
    assert_eq!((bench.read(0x02), bench.read(0x03)), (0x20, 0));
}

#[test]
fn a_repeat_changes_nothing() {
    let mut bench = Bench::new();
    let sound = bench.0.clone();
    bench.diode(1, 0);
    assert!(bench.0 == sound);
    bench.diode(1, 1);
    bench.clocks(3);
    let broken = bench.0.clone();
    bench.diode(1, 1);
    assert!(bench.0 == broken);
    assert_eq!(bench.reasons()[0], Reason::SpinUp(17));
}

#[test]
fn no_read_clears_an_error() {
    let mut bench = Bench::new();
    bench.diode(1, 1);
    bench.sample(0, 488);
    assert_eq!((bench.read(0x02), bench.read(0x02)), (0x60, 0x20));
    assert_eq!(bench.write(0x01, 0x5F).duty, [240, 0]);
    bench.write(0x01, 0x7F);
    assert_eq!((bench.read(0x02), bench.read(0x03)), (0x20, 0));
    assert_eq!(bench.diode(1, 0).duty, [0, 0]);
    assert_eq!(bench.read(0x02), 0);
}

#[test]
fn a_reset_keeps_what_was_found_in_service() {
    let mut bench = Bench::new();
    bench.write(0x00, 0x11);
    bench.diode(1, 1);
    assert_eq!(bench.clocks(20).duty, [80, 80]);
    let reply = bench.write(0x01, 0x80);
    assert_eq!(reply.duty, [240, 0]);
    assert_eq!(bench.reasons(), [Reason::SpinUp(20), Reason::ZeroTarget]);
    assert_eq!((bench.read(0x02), bench.read(0x03)), (0x20, 0));
    bench.diode(1, 0);
    assert_eq!(bench.write(0x01, 0x80).duty, [0, 0]);
    assert_eq!(bench.read(0x02), 0);
    bench.diode(2, 1);
    assert_eq!(bench.ev(Kind::Power, 44, 0, 0).duty, [0, 0]);
    assert_eq!(bench.read(0x03), 0);
}

#[test]
fn a_sample_of_a_channel_in_error() {
    let (mut bench, _) = Bench::powered(0, 1);
    assert_eq!([0, 1, 2].map(|channel| bench.answer(channel, 80)), [9; 3]);
    bench.write(0x00, 0x91);
    assert_eq!(
        [0, 1, 2].map(|channel| bench.answer(channel, 80)),
        [0, 0, 13]
    );
    assert_eq!((bench.answer(2, 1024), bench.answer(0, 1)), (6, 8));
    assert_eq!(bench.ev(Kind::Sample, 2, 1, 80).answer, 6);
    bench.diode(1, 1);
    bench.diode(2, 0);
    assert_eq!(
        [0, 1, 2].map(|channel| bench.answer(channel, 80)),
        [0, 13, 0]
    );
    assert_eq!(bench.ev(Kind::Tach, 1, 0, 80).answer, 0);
}

#[test]
fn mending_gives_flag_latch_and_reading_back() {
    let mut bench = Bench::slope(5, 20, 3);
    bench.write(0x1A, 23);
    bench.write(0x3F, 0x00);
    assert!(bench.sample(1, 201).therm);
    assert_eq!(bench.clocks(20).duty[0], 100);
    let mut sound = Bench(bench.0.clone());
    assert_eq!(bench.diode(1, 1).duty[0], 240);
    assert_eq!(bench.answer(1, 0), 13);
    sound.clocks(1);
    let reply = bench.clocks(1);
    assert!(reply.therm);
    assert_eq!(bench.reasons()[0], Reason::Demand(1));
    let reply = bench.diode(1, 0);
    assert_eq!((reply.duty[0], reply.therm), (100, true));
    assert!(bench.0 == sound.0);
    assert_eq!((bench.read(0x0B), bench.read(0x06)), (25, 1));
    assert_eq!(bench.read(0x02), 0x10);
    let reply = bench.sample(1, 0);
    assert_eq!((reply.duty[0], reply.therm), (0, false));
}

#[test]
fn a_flag_that_is_off_has_no_say() {
    let mut bench = Bench::slope(0, 20, 3);
    assert_eq!(bench.diode(1, 1).duty, [240, 0]);
    assert_eq!(bench.clocks(20).duty, [240, 0]);
    assert_eq!(bench.write(0x25, 0xF8).duty, [240, 0]);
    assert_eq!(bench.reasons(), [Reason::Demand(1), Reason::ZeroTarget]);
    assert_eq!(bench.diode(1, 0).duty, [0, 0]);
}

#[test]
fn a_manual_setting_asks_no_demand() {
    let mut bench = Bench::new();
    bench.write(0x00, 0x11);
    bench.clocks(20);
    assert_eq!(bench.diode(1, 1).duty, [80, 80]);
    assert_eq!(bench.reasons(), [Reason::Manual; 2]);
    assert_eq!(bench.answer(1, 80), 13);
    assert_eq!(bench.write(0x22, 0x50).duty, [0, 80]);
    assert_eq!(bench.write(0x00, 0x91).duty, [240, 0]);
}

#[test]
fn only_the_fans_that_it_is_assigned_to() {
    let both = |mode, errors: [i32; 2]| {
        let mut bench = Bench::new();
        bench.write(0x00, mode);
        bench.diode(1, errors[0]);
        bench.diode(2, errors[1]).duty
    };
    let cards = [
        (0x91, [240, 0], [0, 240]),
        (0xB1, [240, 240], [0, 0]),
        (0xD1, [0, 0], [240, 240]),
        (0xF1, [240, 240], [240, 240]),
    ];
    for (mode, first, second) in cards {
        assert_eq!((both(mode, [1, 0]), both(mode, [0, 1])), (first, second));
    }
}

#[test]
fn a_filtered_fan_ramps_and_a_standing_one_spins_up() {
    let mut bench = Bench::slope(5, 0, 4);
    bench.write(0x23, 0x61);
    bench.sample(1, 1);
    bench.clocks(20);
    assert_eq!(bench.periods(20), 80);
    assert_eq!(bench.diode(1, 1).duty[0], 80);
    let up = |to_go| Reason::Ramp { to_go, target: 240 };
    assert_eq!(bench.reasons()[0], up(160));
    assert_eq!(bench.periods(1), 88);
    assert_eq!(bench.periods(18), 232);
    assert_eq!(bench.reasons()[0], up(8));
    assert_eq!(bench.periods(2), 240);
    assert_eq!(bench.reasons()[0], Reason::Demand(1));
    assert_eq!(bench.diode(1, 0).duty[0], 240);
    assert_eq!(bench.periods(1), 232);
    bench.sample(1, -41);
    assert_eq!(bench.diode(1, 1).duty[0], 240);
    assert_eq!(bench.reasons()[0], Reason::SpinUp(20));
}

#[test]
fn override_and_disabled_output_come_first() {
    let mut bench = Bench::new();
    bench.write(0x01, 0x7E);
    assert_eq!(bench.diode(1, 1).duty, [0, 0]);
    assert_eq!(bench.reasons()[0], Reason::Disabled);
    assert_eq!(bench.write(0x01, 0x7F).duty, [240, 0]);
    bench.ev(Kind::Pin, 0, 0, 0);
    assert_eq!(bench.reasons(), [Reason::PinLow; 2]);
    assert_eq!(bench.diode(1, 0).duty, [240, 240]);
    assert_eq!((bench.read(0x02), bench.read(0x03)), (0x01, 0x81));
}

#[test]
fn the_lowest_of_those_that_ask_240() {
    let mut bench = Bench::new();
    bench.write(0x00, 0xF1);
    bench.write(0x3F, 0x00);
    bench.diode(2, 1);
    bench.clocks(20);
    assert_eq!(bench.reasons(), [Reason::Demand(2); 2]);
    bench.diode(1, 1);
    assert_eq!(bench.reasons(), [Reason::Demand(1); 2]);
    bench.sample(0, 1022);
    assert_eq!(bench.reasons(), [Reason::Demand(0); 2]);
    bench.sample(0, 258);
    assert_eq!(bench.reasons(), [Reason::Demand(1); 2]);
    bench.diode(1, 0);
    assert_eq!(bench.reasons(), [Reason::Demand(2); 2]);
    bench.diode(2, 0);
    assert_eq!(bench.reasons(), [Reason::Demand(0); 2]);
}

#[test]
fn int_by_an_error_of_an_enabled_channel() {
    let mut bench = Bench::new();
    bench.write(0x00, 0x93);
    assert!(bench.diode(1, 1).int);
    assert!(!bench.write(0x01, 0x5F).int);
    assert!(bench.write(0x01, 0x7F).int);
    assert!(!bench.diode(1, 0).int);
    bench.write(0x01, 0x3F);
    assert!(!bench.diode(2, 1).int);
    assert!(bench.write(0x01, 0x40).int);
}

#[test]
fn an_error_found_brings_int_back() {
    let mut bench = Bench::alarmed();
    bench.alert();
    assert!(!bench.diode(2, 0).int);
    assert!(bench.diode(2, 1).int);
    bench.alert();
    assert!(!bench.diode(2, 1).int);
    assert!(!bench.diode(2, 0).int);
    bench.write(0x01, 0x3F);
    assert!(bench.diode(2, 1).int);
    bench.alert();
    assert_eq!(bench.read(0x02), 0x40);
    assert!(!bench.diode(1, 0).int);
    // neither remote channel is enabled: the silence ends, and INT waits for one of them
    bench.write(0x01, 0x1F);
    assert!(!bench.diode(1, 1).int);
    assert!(bench.write(0x01, 0x7F).int);
}
