//! Cards for T-03: the reason for a fan's duty.

use super::{lines, Bench};
use crate::keeper::{Keeper, Kind, Reason};
use crate::why;

impl Bench {
    fn why(&self) -> [Reason; 2] {
        [1, 2].map(|fan| self.0.why(fan).unwrap())
    }

    // automatic, all channels on both fans, each with m, Tmin 0 and its own range code
    fn all_assigned(m: i32, codes: [i32; 3]) -> Self {
        let mut bench = Bench::new();
        bench.write(0x00, 0xF1);
        bench.write(0x22, 0x11 * m);
        for (register, code) in (0x24..).zip(codes) {
            bench.write(register, code);
        }
        bench
    }

    // the channel that both fans follow once their spin-ups are over
    fn asked_by(&mut self) -> usize {
        self.clocks(20);
        match self.why() {
            [Reason::Demand(first), Reason::Demand(second)] if first == second => first,
            reasons => panic!("{reasons:?}"),
        }
    }
}

fn ramp(to_go: i32, target: i32) -> Reason {
    Reason::Ramp { to_go, target }
}

#[test]
fn refusals_of_a_reason() {
    let mut bench = Bench(Keeper::new());
    assert_eq!([1, 2, 3].map(|fan| bench.0.why(fan)), [Err(1); 3]);
    assert_eq!(bench.ev(Kind::Power, 47, 0, 0).answer, 6);
    assert_eq!([1, 2, 3].map(|fan| bench.0.why(fan)), [Err(1); 3]);
    bench.ev(Kind::Power, 44, 0, 0);
    assert_eq!(bench.why(), [Reason::ZeroTarget; 2]);
    let none = [0, 3, -1, i32::MIN];
    assert_eq!(none.map(|fan| bench.0.why(fan)), [Err(3); 4]);
}

#[test]
fn disabled_before_pin_before_latch() {
    let mut bench = Bench::new();
    bench.sample(0, 562);
    assert_eq!(bench.why(), [Reason::Latched(0); 2]);
    bench.ev(Kind::Pin, 0, 0, 0);
    assert_eq!(bench.why(), [Reason::PinLow; 2]);
    bench.write(0x01, 0x7E);
    assert_eq!(bench.why(), [Reason::Disabled, Reason::PinLow]);
    bench.write(0x01, 0x7D);
    assert_eq!(bench.why(), [Reason::PinLow, Reason::Disabled]);
}

#[test]
fn the_lowest_latch_names_both_fans() {
    let mut bench = Bench::new();
    bench.sample(2, 801);
    assert_eq!(bench.why(), [Reason::Latched(2); 2]);
    bench.sample(1, 801);
    assert_eq!(bench.why(), [Reason::Latched(1); 2]);
    bench.sample(0, 562);
    assert_eq!(bench.why(), [Reason::Latched(0); 2]);
    bench.sample(0, 518);
    assert_eq!(bench.why(), [Reason::Latched(1); 2]);
    bench.write(0x3F, 0x00);
    assert_eq!(bench.why(), [Reason::SpinUp(20); 2]);
}

#[test]
fn a_spin_up_goes_on_under_override() {
    let mut bench = Bench::slope(5, 0, 3);
    bench.sample(1, 161);
    assert_eq!(bench.why(), [Reason::SpinUp(20), Reason::ZeroTarget]);
    bench.clocks(5);
    bench.ev(Kind::Pin, 0, 0, 0);
    bench.clocks(4);
    assert_eq!(bench.why(), [Reason::PinLow; 2]);
    bench.ev(Kind::Pin, 0, 0, 1);
    assert_eq!(bench.why(), [Reason::SpinUp(11), Reason::ZeroTarget]);
    bench.clocks(10);
    assert_eq!(bench.why()[0], Reason::SpinUp(1));
    bench.clocks(1);
    assert_eq!(bench.why()[0], Reason::Demand(1));
}

#[test]
fn the_ramp_until_it_is_over() {
    let mut bench = Bench::new();
    bench.write(0x23, 0x61);
    bench.write(0x00, 0x11);
    assert_eq!(bench.why(), [Reason::SpinUp(20); 2]);
    bench.clocks(20);
    assert_eq!(bench.why(), [ramp(-160, 80), Reason::Manual]);
    for _ in 0..19 {
        bench.ev(Kind::Period, 1, 0, 0);
    }
    assert_eq!(bench.why(), [ramp(-8, 80), Reason::Manual]);
    bench.ev(Kind::Period, 1, 0, 0);
    assert_eq!(bench.why(), [Reason::Manual; 2]);
    bench.write(0x22, 0x5F);
    assert_eq!(bench.why(), [ramp(160, 240), Reason::Manual]);
    bench.write(0x22, 0x50);
    assert_eq!(bench.why(), [Reason::ZeroTarget, Reason::Manual]);
}

#[test]
fn the_lowest_of_those_that_ask_the_most() {
    let mut bench = Bench::all_assigned(5, [3; 3]);
    bench.sample(2, 160);
    assert_eq!(bench.asked_by(), 2);
    bench.sample(1, 160);
    assert_eq!(bench.asked_by(), 1);
    bench.sample(0, 160);
    assert_eq!(bench.asked_by(), 0);
    bench.sample(2, 161);
    assert_eq!(bench.asked_by(), 0);
    bench.sample(2, 162);
    assert_eq!(bench.asked_by(), 2);
    let mut bench = Bench::all_assigned(15, [3; 3]);
    bench.sample(2, 500);
    bench.sample(1, 1);
    assert_eq!(bench.asked_by(), 1);
}

#[test]
fn not_the_hottest() {
    let mut bench = Bench::all_assigned(5, [3, 4, 0]);
    bench.sample(1, 320);
    bench.sample(2, 150);
    assert_eq!(bench.asked_by(), 2);
}

#[test]
fn a_refused_event_leaves_the_reasons() {
    let mut bench = Bench::slope(5, 0, 3);
    bench.write(0x23, 0x01);
    bench.sample(1, 161);
    bench.clocks(20);
    let before = bench.why();
    assert_eq!(before, [ramp(-80, 160), Reason::ZeroTarget]);
    assert_eq!(bench.ev(Kind::Period, 3, 0, 0).answer, 3);
    assert_eq!(bench.ev(Kind::Pin, 0, 0, 2).answer, 6);
    assert_eq!(bench.ev(Kind::Sample, 1, 0, 1024).answer, 6);
    assert_eq!(bench.why(), before);
}

// the reasons without the ages that follow them
fn told(events: &[&str]) -> String {
    let told = String::from_utf8(why(lines(events).as_bytes())).unwrap();
    told[..told.find("age1=").unwrap_or(told.len())].to_string()
}

#[test]
fn reasons_in_words() {
    let power = "power 44 0 0";
    assert_eq!(told(&[power]), "reason1=zero\nreason2=zero\n");
    let off = "write 44 1 126";
    assert_eq!(told(&[power, off]), "reason1=disabled\nreason2=zero\n");
    let low = "pin 0 0 0";
    assert_eq!(told(&[power, low]), "reason1=pin\nreason2=pin\n");
    let hot = ["write 44 0 145", "sample 2 0 801"];
    assert_eq!(
        told(&[power, hot[0], hot[1]]),
        "reason1=therm 2\nreason2=therm 2\n"
    );
    let manual = "write 44 0 17";
    assert_eq!(told(&[power, manual]), "reason1=spin 20\nreason2=spin 20\n");
    let short = ["write 44 32 0", "write 44 35 1", manual, "clock 0 0 0"];
    let spun = [&[power][..], &short, &["clock 0 0 0"]].concat();
    assert_eq!(told(&spun), "reason1=ramp 160 down 80\nreason2=spin 18\n");
    let faster = [&spun[..], &["write 44 34 95", "write 44 35 0"]].concat();
    assert_eq!(told(&faster), "reason1=manual\nreason2=spin 18\n");
}

#[test]
fn the_words_of_a_demand_and_of_a_way_up() {
    let mut events = vec!["power 44 0 0", "write 44 0 145", "write 44 32 0"];
    events.extend(["write 44 37 3", "sample 1 0 161", "clock 0 0 0"]);
    events.push("clock 0 0 0");
    assert_eq!(told(&events), "reason1=demand 1\nreason2=zero\n");
    events.extend(["write 44 35 1", "write 44 34 88"]);
    assert_eq!(told(&events), "reason1=ramp 48 up 208\nreason2=zero\n");
}

#[test]
fn texts_without_a_reason() {
    assert_eq!(told(&[]), "answer=1\n");
    assert_eq!(told(&["power 47 0 0", "clock 0 0 0"]), "answer=1\n");
    assert_eq!(why(b"kind=clock\n"), b"answer=10\n");
    let cut = lines(&["power 44 0 0", "clock 0 0 0"]);
    assert_eq!(why(&cut.as_bytes()[..cut.len() - 1]), b"answer=10\n");
    assert_eq!(why(&[b'x'; 65_536]), b"answer=10\n");
    assert_eq!(why(&[b'x'; 65_537]), b"answer=11\n");
}
