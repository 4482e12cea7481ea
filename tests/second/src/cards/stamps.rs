//! Cards for T-07: since when.

use super::{lines, Bench};
use crate::keeper::{Keeper, Kind};
use crate::why;

impl Bench {
    // the stamp, and the age of each fan
    fn since(&self) -> [i32; 3] {
        [self.0.stamp(), self.0.age(0), self.0.age(1)]
    }

    // both fans at 80 by hand since stamp 7, their spin-ups of 20 clocks over
    fn by_hand() -> Self {
        let mut bench = Bench::new();
        bench.clocks(7);
        assert_eq!(bench.write(0x00, 0x11).duty, [240, 240]);
        assert_eq!(bench.clocks(20).duty, [80, 80]);
        assert_eq!(bench.since(), [27, 20, 20]);
        bench
    }
}

#[test]
fn all_are_0_before_power() {
    let mut bench = Bench(Keeper::new());
    assert_eq!(bench.clocks(3).answer, 1);
    assert_eq!(bench.ev(Kind::Power, 47, 0, 0).answer, 6);
    assert_eq!(bench.clocks(1).answer, 1);
    assert_eq!(bench.since(), [0; 3]);
    bench.ev(Kind::Power, 44, 0, 0);
    assert_eq!(bench.since(), [0; 3]);
    bench.clocks(1);
    assert_eq!(bench.since(), [1; 3]);
}

#[test]
fn starts_and_stops() {
    let mut bench = Bench::new();
    bench.clocks(5);
    assert_eq!(bench.since(), [5; 3]);
    assert_eq!(bench.ev(Kind::Pin, 0, 0, 0).duty, [240, 240]);
    assert_eq!(bench.since(), [5, 0, 0]);
    bench.clocks(3);
    assert_eq!(bench.ev(Kind::Pin, 0, 0, 1).duty, [0, 0]);
    assert_eq!(bench.since(), [8, 3, 3]);
    bench.clocks(2);
    assert_eq!(bench.since(), [10, 5, 5]);
    bench.ev(Kind::Pin, 0, 0, 0);
    assert_eq!(bench.since(), [10, 0, 0]);
}

#[test]
fn each_fan_has_its_own() {
    let mut bench = Bench::by_hand();
    assert_eq!(bench.write(0x01, 0x7D).duty, [80, 0]);
    bench.clocks(4);
    assert_eq!(bench.write(0x01, 0x7F).duty, [80, 240]);
    assert_eq!(bench.since(), [31, 24, 0]);
    assert_eq!(bench.write(0x01, 0x7E).duty, [0, 240]);
    bench.clocks(1);
    assert_eq!(bench.write(0x01, 0x7F).duty, [240, 240]);
    assert_eq!(bench.since(), [32, 0, 1]);
}

#[test]
fn only_accepted_clocks_count() {
    let mut bench = Bench::by_hand();
    let before = bench.0.clone();
    for (who, arg, val) in [(1, 0, 0), (0, -1, 0), (0, 0, 1)] {
        assert_eq!(bench.ev(Kind::Clock, who, arg, val).answer, 6);
    }
    assert!(bench.0 == before);
    bench.ev(Kind::Period, 1, 0, 0);
    bench.ev(Kind::Period, 2, 0, 0);
    assert_eq!(bench.ev(Kind::Alert, 44, 0, 0).answer, 0);
    bench.read(0x02);
    assert_eq!(bench.since(), [27, 20, 20]);
}

#[test]
fn other_changes_of_duty_are_no_start() {
    let mut bench = Bench::by_hand();
    assert_eq!(bench.ev(Kind::Pin, 0, 0, 0).duty, [240, 240]);
    assert_eq!(bench.ev(Kind::Pin, 0, 0, 1).duty, [80, 80]);
    bench.write(0x23, 0x61);
    assert_eq!(bench.write(0x22, 0x6F).duty, [80, 96]);
    assert_eq!(bench.ev(Kind::Period, 1, 0, 0).duty, [88, 96]);
    assert_eq!(bench.since(), [27, 20, 20]);
}

#[test]
fn a_failed_measurement_is_no_start() {
    let mut bench = Bench::by_hand();
    bench.write(0x10, 100);
    assert_eq!(bench.tach(101).duty, [240, 80]);
    assert_eq!(bench.since(), [27, 20, 20]);
    assert_eq!(bench.clocks(20).duty, [80, 80]);
    assert_eq!(bench.since(), [47, 40, 40]);
}

#[test]
fn reset_keeps_the_stamp() {
    let mut bench = Bench::by_hand();
    assert_eq!(bench.write(0x01, 0x80).duty, [0, 0]);
    assert_eq!(bench.since(), [27, 0, 0]);
    bench.clocks(3);
    bench.ev(Kind::Pin, 0, 0, 0);
    bench.clocks(2);
    assert_eq!(bench.since(), [32, 2, 2]);
    assert_eq!(bench.write(0x01, 0x80).duty, [240, 240]);
    assert_eq!(bench.since(), [32, 0, 0]);
    assert_eq!(bench.ev(Kind::Write, 45, 0x01, 0x80).answer, 2);
    bench.clocks(1);
    assert_eq!(bench.since(), [33, 1, 1]);
}

#[test]
fn power_sets_all_to_0() {
    for (errors, duty) in [([0, 0], [0, 0]), ([1, 0], [240, 0]), ([0, 1], [0, 240])] {
        let mut bench = Bench::by_hand();
        assert_eq!(bench.ev(Kind::Power, 47, 0, 0).answer, 6);
        assert_eq!(bench.since(), [27, 20, 20]);
        let reply = bench.ev(Kind::Power, 44, errors[0], errors[1]);
        assert_eq!((reply.duty, bench.since()), (duty, [0; 3]));
        bench.clocks(2);
        assert_eq!(bench.since(), [2; 3]);
    }
}

#[test]
fn the_stamp_wraps() {
    let mut bench = Bench::by_hand();
    bench.clocks(65_535 - 27);
    assert_eq!(bench.since(), [65_535, 65_528, 65_528]);
    bench.write(0x01, 0x7D);
    bench.write(0x01, 0x7F);
    assert_eq!(bench.since(), [65_535, 65_528, 0]);
    bench.clocks(1);
    assert_eq!(bench.since(), [0, 65_529, 1]);
    bench.clocks(6);
    assert_eq!(bench.since(), [6, 65_535, 7]);
    bench.clocks(1);
    assert_eq!(bench.since(), [7, 0, 8]);
    bench.clocks(300);
    assert_eq!(bench.since(), [307, 300, 308]);
    bench.write(0x01, 0x80);
    assert_eq!(bench.since(), [307, 0, 0]);
}

#[test]
fn ages_in_words() {
    let told = |events: &[&str]| String::from_utf8(why(lines(events).as_bytes())).unwrap();
    let (power, clock) = ("power 44 0 0", "clock 0 0 0");
    let zero = "reason1=zero\nreason2=zero\n";
    assert_eq!(told(&[power]), format!("{zero}age1=0\nage2=0\n"));
    let ten = [&[power][..], &[clock; 10]].concat();
    assert_eq!(told(&ten), format!("{zero}age1=10\nage2=10\n"));
    let broken = [&ten[..], &["diode 2 0 1", clock]].concat();
    let ages = "age1=11\nage2=1\n";
    assert_eq!(
        told(&broken),
        format!("reason1=zero\nreason2=spin 19\n{ages}")
    );
    assert_eq!(told(&[clock; 10]), "answer=1\n");
    assert_eq!(told(&[power, "clocks 0 0 0"]), "answer=10\n");
}
