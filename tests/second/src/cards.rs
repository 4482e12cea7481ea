//! The worked example and the bench cards of 01, and cards for its other rules.

mod diodes;
mod panel;
mod reasons;
mod stamps;

use crate::keeper::{Event, Keeper, Kind, Reply};
use crate::replay;
use crate::row::{search, Entry};

struct Bench(Keeper);

impl Bench {
    // powered at 44, with monitoring on
    fn new() -> Self {
        let mut bench = Bench(Keeper::new());
        bench.ev(Kind::Power, 44, 0, 0);
        bench.write(0x00, 0x91);
        bench
    }

    // automatic, remote 1 on fan 1 with m, Tmin and the range code
    fn slope(m: i32, t_min: i32, code: i32) -> Self {
        let mut bench = Bench::new();
        bench.write(0x22, m);
        bench.write(0x25, t_min / 4 * 8 + code);
        bench
    }

    fn ev(&mut self, kind: Kind, who: i32, arg: i32, val: i32) -> Reply {
        self.0.take(Event {
            kind,
            who,
            arg,
            val,
        })
    }

    fn write(&mut self, register: i32, byte: i32) -> Reply {
        let reply = self.ev(Kind::Write, 44, register, byte);
        assert_eq!(reply.answer, 0);
        reply
    }

    fn read(&mut self, register: i32) -> u8 {
        self.ev(Kind::Point, 44, register, 0);
        self.ev(Kind::Read, 44, 0, 0).data
    }

    fn sample(&mut self, channel: i32, t: i32) -> Reply {
        let reply = self.ev(Kind::Sample, channel, 0, t);
        assert_eq!(reply.answer, 0);
        reply
    }

    fn alert(&mut self) -> Reply {
        let reply = self.ev(Kind::Alert, 44, 0, 0);
        assert_eq!((reply.answer, reply.data, reply.int), (0, 0, false));
        reply
    }

    // with INT enabled, and asserted by the local high bit
    fn alarmed() -> Self {
        let mut bench = Bench::new();
        bench.write(0x00, 0x93);
        assert!(bench.sample(0, 488).int);
        bench
    }

    fn tach(&mut self, count: i32) -> Reply {
        self.ev(Kind::Tach, 1, 0, count)
    }

    fn clocks(&mut self, n: usize) -> Reply {
        (0..n)
            .map(|_| self.ev(Kind::Clock, 0, 0, 0))
            .last()
            .unwrap()
    }
}

fn duty_at(m: i32, t_min: i32, code: i32, t: i32) -> i32 {
    let mut bench = Bench::slope(m, t_min, code);
    assert_eq!(bench.sample(1, t).duty[0], 240);
    bench.clocks(20).duty[0]
}

// value register and 0x06 after a sample of t under an offset byte
fn offset_bytes(channel: i32, byte: i32, t: i32) -> (u8, u8) {
    let mut bench = Bench::new();
    bench.write(0x0D + channel, byte);
    bench.sample(channel, t);
    (bench.read(0x0A + channel), bench.read(0x06))
}

fn lines(events: &[&str]) -> String {
    let names = ["kind", "who", "arg", "val"];
    let one = |e: &&str| -> String {
        e.split(' ')
            .zip(names)
            .map(|(v, n)| format!("{n}={v}\n"))
            .collect()
    };
    events.iter().map(one).collect()
}

fn report(text: &str) -> String {
    String::from_utf8(replay(text.as_bytes())).unwrap()
}

fn block(answer: i32) -> String {
    format!("answer={answer}\ndata=0\nint=0\ntherm=0\nfault=0\nduty1=0\nduty2=0\n")
}

#[test]
fn worked_example() {
    let text = lines(&["power 44 0 0", "clock 0 0 0", "write 45 0 0"]);
    assert_eq!(report(&text), block(0) + &block(0) + &block(2));
}

#[test]
fn an_alert_in_text() {
    let text = lines(&["alert 44 0 0", "power 44 0 0", "alert 44 0 0"]);
    assert_eq!(report(&text), block(1) + &block(0) + &block(0));
}

#[test]
fn slope_cards() {
    assert_eq!((duty_at(8, 0, 3, 223), duty_at(8, 0, 3, 224)), (239, 240));
    assert_eq!((duty_at(11, 0, 3, 127), duty_at(11, 0, 3, 128)), (239, 240));
    assert_eq!((duty_at(5, 20, 3, 320), duty_at(5, 0, 4, 320)), (160, 160));
    assert_eq!((duty_at(5, 0, 4, 160), duty_at(5, 0, 4, 560)), (120, 220));
}

#[test]
fn run_flag_card() {
    let mut bench = Bench::slope(5, 20, 3);
    assert_eq!(bench.sample(1, 160).duty[0], 0);
    assert_eq!(bench.sample(1, 161).duty[0], 240);
    assert_eq!(bench.clocks(20).duty[0], 80);
    assert_eq!(bench.sample(1, 120).duty[0], 80);
    assert_eq!(bench.sample(1, 119).duty[0], 0);
}

#[test]
fn latch_cards() {
    let mut bench = Bench::new();
    assert!(!bench.sample(1, 800).therm);
    assert!(bench.sample(1, 801).therm);
    assert!(bench.sample(1, 760).therm);
    assert!(!bench.sample(1, 759).therm);
    bench.write(0x1A, -123 & 0xFF);
    assert!(bench.sample(1, 0).therm);
    assert!((-1024..=1023).all(|t| bench.sample(1, t).therm));
}

#[test]
fn rounding_card() {
    let mut bench = Bench::new();
    bench.sample(1, -1);
    assert_eq!((bench.read(0x0B), bench.read(0x06)), (255, 7));
    bench.sample(1, -8);
    assert_eq!((bench.read(0x0B), bench.read(0x06)), (255, 0));
    bench.sample(0, -2);
    bench.sample(2, 13);
    assert_eq!((bench.read(0x0A), bench.read(0x0C)), (255, 1));
    assert_eq!(bench.read(0x06), 0b11_101_000);
}

#[test]
fn offset_cards() {
    assert_eq!(offset_bytes(1, 0x03, 81), (13, 1));
    assert_eq!(offset_bytes(1, 0x83, 81), (7, 1));
    assert_eq!(offset_bytes(1, 0x8F, 80), (251, 0));
    assert_eq!(offset_bytes(2, 0xFD, 0), (243, 0));
    assert_eq!(offset_bytes(2, 0x80, 13), (1, 0b101_000));
    assert_eq!(offset_bytes(0, 0x7F, 2), (15, 0b01_000_000));
    assert_eq!(offset_bytes(0, 0xF0, 80), (10, 0));
}

#[test]
fn offset_end_cards() {
    assert_eq!(offset_bytes(1, 0x0F, 1023), (127, 7));
    assert_eq!(offset_bytes(1, 0x0F, 904), (127, 7));
    assert_eq!(offset_bytes(1, 0x0F, 902), (127, 6));
    assert_eq!(offset_bytes(2, 0x8F, -1024), (128, 0));
    assert_eq!(offset_bytes(2, 0x8F, -905), (128, 0));
    assert_eq!(offset_bytes(2, 0x8F, -903), (128, 0b001_000));
    assert_eq!(offset_bytes(0, 0x01, 1022), (127, 0b11_000_000));
    assert_eq!(offset_bytes(0, 0x01, 1012), (127, 0b10_000_000));
    assert_eq!(offset_bytes(0, 0x81, -1024), (128, 0));
}

#[test]
fn an_offset_waits_for_the_next_sample() {
    let mut bench = Bench::slope(5, 20, 3);
    bench.write(0x1A, 23);
    assert_eq!(bench.sample(1, 161).duty[0], 240);
    assert_eq!(bench.clocks(20).duty[0], 80);
    let reply = bench.write(0x0E, 0x03);
    assert_eq!(
        (reply.duty[0], reply.therm, bench.read(0x0B)),
        (80, false, 20)
    );
    assert!(bench.sample(1, 161).therm);
    assert_eq!((bench.read(0x0B), bench.read(0x02)), (23, 0x11));
    bench.write(0x0E, 0x86);
    assert_eq!(bench.sample(1, 161).duty[0], 0);
    assert_eq!((bench.read(0x0B), bench.read(0x06)), (14, 1));
}

#[test]
fn ramp_card() {
    let mut bench = Bench::new();
    bench.write(0x23, 0x61);
    bench.write(0x00, 0x11);
    assert_eq!(bench.clocks(20).duty, [240, 80]);
    let duty: Vec<i32> = (0..21)
        .map(|_| bench.ev(Kind::Period, 1, 0, 0).duty[0])
        .collect();
    assert_eq!(duty[18..], [88, 80, 80]);
}

#[test]
fn tach_cards() {
    let mut bench = Bench::new();
    bench.write(0x00, 0x11);
    assert_eq!(bench.clocks(20).duty[0], 80);
    assert_eq!(bench.tach(255).duty[0], 80);
    bench.write(0x10, 254);
    assert_eq!(bench.tach(254).duty[0], 80);
    assert_eq!(bench.tach(255).duty[0], 240);
    assert_eq!((bench.read(0x02), bench.read(0x02)), (2, 0));
}

#[test]
fn five_failures() {
    let mut bench = Bench::new();
    bench.write(0x10, 100);
    bench.write(0x00, 0x11);
    for failures in 1..=6 {
        bench.clocks(20);
        assert_eq!(bench.tach(101).fault, failures >= 5);
        assert_eq!(bench.tach(101).fault, failures >= 5);
    }
    assert!(!bench.write(0x01, 0x7B).fault);
}

#[test]
fn status_outlives_no_read_but_the_latch_does() {
    let mut bench = Bench::new();
    bench.write(0x00, 0x93);
    let reply = bench.sample(0, 562);
    assert!(reply.int && reply.therm);
    assert_eq!((bench.read(0x02), bench.read(0x03)), (0x41, 0x41));
    let reply = bench.sample(0, 562);
    assert!(reply.int && reply.therm);
    assert_eq!((bench.read(0x02), bench.read(0x03)), (0x40, 0));
    bench.sample(0, 562);
    assert!(!bench.write(0x01, 0x6F).int);
    assert!(bench.sample(0, 562).therm);
}

#[test]
fn reset_with_the_pin_low() {
    let mut bench = Bench(Keeper::new());
    bench.ev(Kind::Power, 45, 0, 1);
    assert_eq!(bench.ev(Kind::Pin, 0, 0, 0).duty, [240, 240]);
    assert_eq!(bench.ev(Kind::Write, 45, 0x01, 0xFF).duty, [240, 240]);
    assert_eq!(bench.ev(Kind::Read, 45, 0, 0).data, 0x7F);
    bench.ev(Kind::Point, 45, 3, 0);
    assert_eq!(bench.ev(Kind::Read, 45, 0, 0).data, 0x21);
    assert_eq!(bench.ev(Kind::Read, 45, 0, 0).data, 0x20);
    // T-05: the pin drove both, the broken diode drives its fan still
    assert_eq!(bench.ev(Kind::Pin, 0, 0, 1).duty, [0, 240]);
}

#[test]
fn an_alert_lets_int_go_and_nothing_else() {
    let mut bench = Bench::alarmed();
    let (mut before, mut after) = ([0; 64], [0; 64]);
    bench.0.image(&mut before);
    let reply = bench.alert();
    bench.0.image(&mut after);
    assert_eq!(
        (reply.therm, reply.fault, reply.duty),
        (false, false, [0, 0])
    );
    assert_eq!((before, before[0x02]), (after, 0x40));
    assert_eq!(bench.ev(Kind::Read, 44, 0, 0).data, 0x93);
}

#[test]
fn only_a_rise_brings_int_back() {
    let mut bench = Bench::alarmed();
    bench.alert();
    assert!(!bench.sample(0, 490).int);
    assert!(!bench.write(0x00, 0x91).int);
    assert!(!bench.write(0x00, 0x93).int);
    assert!(!bench.write(0x01, 0x5F).int);
    assert!(!bench.write(0x01, 0x7F).int);
    assert_eq!(bench.read(0x02), 0x40);
    assert!(bench.sample(0, 490).int);
    bench.alert();
    assert!(bench.ev(Kind::Pin, 0, 0, 0).int);
    bench.alert();
    assert!(!bench.ev(Kind::Pin, 0, 0, 1).int);
    assert!(!bench.ev(Kind::Pin, 0, 0, 0).int);
    assert_eq!((bench.read(0x02), bench.read(0x03)), (0x41, 0x81));
}

#[test]
fn a_rise_that_the_enable_bit_hides_counts() {
    let mut bench = Bench::alarmed();
    bench.alert();
    bench.write(0x00, 0x91);
    assert!(!bench.sample(1, -8).int);
    assert!(bench.write(0x00, 0x93).int);
}

#[test]
fn an_alert_with_int_not_asserted_changes_nothing() {
    let mut bench = Bench::alarmed();
    bench.write(0x00, 0x91);
    let before = bench.0.clone();
    bench.alert();
    assert!(bench.0 == before);
    assert!(bench.write(0x00, 0x93).int);
    bench.alert();
    let before = bench.0.clone();
    bench.alert();
    assert!(bench.0 == before);
}

#[test]
fn reset_and_power_end_an_alert() {
    for (kind, arg, val) in [(Kind::Write, 0x01, 0x80), (Kind::Power, 1, 0)] {
        let mut bench = Bench(Keeper::new());
        bench.ev(Kind::Power, 44, 1, 0);
        assert!(bench.write(0x00, 0x93).int);
        bench.alert();
        assert!(!bench.write(0x00, 0x93).int);
        assert_eq!(bench.ev(kind, 44, arg, val).answer, 0);
        assert!(bench.write(0x00, 0x93).int);
    }
}

// a row as address and 1 where the entry asserts; the answer, and the row after it
fn searched<const N: usize>(row: [(u8, u8); N]) -> (Result<u8, u8>, [(u8, u8); N]) {
    let mut row = row.map(|(address, asserting)| Entry {
        address,
        asserting: asserting == 1,
    });
    let answer = search(&mut row);
    (answer, row.map(|e| (e.address, u8::from(e.asserting))))
}

#[test]
fn the_lowest_that_asserts_is_let_go() {
    assert_eq!(searched([(46, 1)]), (Ok(46), [(46, 0)]));
    assert_eq!(
        searched([(46, 1), (44, 0), (45, 1)]),
        (Ok(45), [(46, 1), (44, 0), (45, 0)])
    );
    assert_eq!(
        searched([(45, 1), (46, 1), (44, 1)]),
        (Ok(44), [(45, 1), (46, 1), (44, 0)])
    );
}

#[test]
fn a_row_that_is_refused_stays() {
    fn refused<const N: usize>(row: [(u8, u8); N], number: u8) {
        assert_eq!(searched(row), (Err(number), row));
    }
    refused([], 12);
    refused([(44, 0), (45, 0)], 12);
    refused([(44, 0), (45, 1), (44, 0)], 12);
    refused([(46, 1), (46, 1)], 12);
    refused([(44, 1), (47, 0)], 6);
    refused([(43, 0), (43, 0)], 6);
    refused([(44, 1), (45, 1), (44, 1), (255, 1)], 6);
}

#[test]
fn refusals() {
    let cards = [
        (Kind::Power, 43, 0, 0, 6),
        (Kind::Write, 45, 99, 0, 2),
        (Kind::Write, 44, 0x12, 256, 4),
        (Kind::Write, 44, 0x02, 256, 5),
        (Kind::Write, 44, 0x24, 0x107, 6),
        (Kind::Write, 44, 0x24, 5, 7),
        (Kind::Point, 44, 256, 1, 4),
        (Kind::Point, 44, 0, 1, 6),
        (Kind::Read, 44, 1, 0, 6),
        (Kind::Sample, 3, 1, 0, 3),
        (Kind::Sample, 0, 0, 1025, 6),
        (Kind::Sample, 0, 0, 1, 8),
        (Kind::Sample, 1, 0, 1, 9),
        (Kind::Tach, 0, 0, 256, 3),
        (Kind::Tach, 1, 0, -1, 6),
        (Kind::Tach, 1, 0, 0, 9),
        (Kind::Pin, 1, 0, 0, 6),
        (Kind::Clock, 0, 0, 1, 6),
        (Kind::Period, i32::MIN, 1, 0, 3),
        (Kind::Alert, 12, 0, 0, 2),
        (Kind::Alert, 45, 1, 0, 2),
        (Kind::Alert, 44, 1, 0, 6),
        (Kind::Alert, 44, 0, -1, 6),
    ];
    let mut bench = Bench(Keeper::new());
    assert_eq!(bench.ev(Kind::Clock, 1, 0, 0).answer, 1);
    assert_eq!(bench.ev(Kind::Alert, 44, 1, 0).answer, 1);
    bench.ev(Kind::Power, 44, 0, 0);
    let before = bench.0.clone();
    for (kind, who, arg, val, answer) in cards {
        assert_eq!(
            bench.ev(kind, who, arg, val).answer,
            answer,
            "{kind:?} {who} {arg} {val}"
        );
        assert!(bench.0 == before);
    }
}

#[test]
fn malformed_text() {
    let wrong = |text: &str, line: i32| {
        let report = report(text);
        let end = format!("answer=10\nline={line}\n");
        assert!(report.ends_with(&end), "{text:?}: {report:?}");
    };
    assert_eq!(report(""), "");
    wrong("\n", 1);
    wrong("kind=clock", 1);
    wrong("kind=clocks\n", 1);
    wrong("kind=alerts\n", 1);
    wrong("kind=diodes\n", 1);
    wrong("kind=diod\n", 1);
    wrong("kind=clock\n", 2);
    wrong("kind=clock\nwho=0\narg=0\nval=0", 4);
    wrong("kind=clock\nwho=0\narg=0\nval=0\n\n", 5);
    for bad in [
        "",
        "+1",
        "-",
        "-0",
        "01",
        "1 ",
        "2147483648",
        "-2147483649",
        "0\r",
    ] {
        wrong(&format!("kind=clock\nwho={bad}\narg=0\nval=0\n"), 2);
    }
    let widest = lines(&["clock -2147483648 2147483647 0"]);
    assert_eq!(report(&widest), block(1));
}

#[test]
fn longest_text() {
    let mut text = vec![b'x'; 65_536];
    assert_eq!(replay(&text), b"answer=10\nline=1\n");
    text.push(b'x');
    assert_eq!(replay(&text), b"answer=11\n");
}
