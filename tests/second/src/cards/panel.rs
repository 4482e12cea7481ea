//! Cards for T-06: the panel in the wheelhouse.

use super::{lines, Bench};
use crate::keeper::{Keeper, Kind, Panel, Speed};
use crate::panel;

impl Bench {
    fn panel(&self) -> Panel {
        self.0.panel().unwrap()
    }

    fn degrees(&mut self, channel: i32, t: i32) -> f64 {
        self.sample(channel, t);
        self.panel().degrees[channel as usize]
    }

    // of both fans, once the byte stands in their speed registers
    fn speeds(&mut self, count: i32) -> [Speed; 2] {
        self.ev(Kind::Tach, 1, 0, count);
        self.ev(Kind::Tach, 2, 0, count);
        self.panel().speeds
    }
}

fn told(events: &[&str]) -> String {
    String::from_utf8(panel(lines(events).as_bytes())).unwrap()
}

// the panel's lines after power, monitoring on, and these
fn shown(events: &[&str]) -> String {
    told(&[&["power 44 0 0", "write 44 0 145"], events].concat())
}

// the figures of these, in the order of the lines
fn figures(events: &[&str]) -> Vec<String> {
    let shown = shown(events);
    let names = ["local=", "remote1=", "remote2=", "fan1=", "fan2="];
    let figures = shown.lines().zip(names);
    figures
        .map(|(line, name)| line.strip_prefix(name).unwrap().to_string())
        .collect()
}

#[test]
fn refused_before_power() {
    let mut bench = Bench(Keeper::new());
    assert_eq!(bench.0.panel(), Err(1));
    assert_eq!(bench.ev(Kind::Power, 47, 0, 0).answer, 6);
    assert_eq!(bench.ev(Kind::Sample, 0, 0, 80).answer, 1);
    assert_eq!(bench.0.panel(), Err(1));
    bench.ev(Kind::Power, 44, 0, 0);
    let empty = Panel {
        degrees: [0.0; 3],
        speeds: [Speed::NotMeasured; 2],
    };
    assert_eq!(bench.panel(), empty);
}

#[test]
fn degrees_are_eighths() {
    let mut bench = Bench::new();
    assert_eq!([-1, 161].map(|t| bench.degrees(1, t)), [-0.125, 20.125]);
    let ends = [-1024, 1023].map(|t| bench.degrees(2, t));
    assert_eq!(ends, [-128.0, 127.875]);
    let local = [-1024, -2, 0, 1022].map(|t| bench.degrees(0, t));
    assert_eq!(local, [-128.0, -0.25, 0.0, 127.75]);
    assert_eq!(bench.degrees(1, 0).to_bits(), 0.0f64.to_bits());
    bench.sample(1, -1);
    assert_eq!(bench.panel().degrees, [127.75, -0.125, 127.875]);
}

#[test]
fn degrees_come_after_the_offset() {
    let mut bench = Bench::new();
    bench.write(0x0E, 0x03);
    assert_eq!(bench.panel().degrees[1], 0.0);
    assert_eq!(bench.degrees(1, 161), 23.125);
    bench.write(0x0E, 0x83);
    assert_eq!(bench.panel().degrees[1], 23.125);
    assert_eq!(bench.degrees(1, 161), 17.125);
}

#[test]
fn a_broken_diode_keeps_its_degrees() {
    let mut bench = Bench::new();
    bench.sample(2, 169);
    bench.ev(Kind::Diode, 2, 0, 1);
    assert_eq!(bench.ev(Kind::Sample, 2, 0, 320).answer, 13);
    assert_eq!(bench.panel().degrees[2], 21.125);
    bench.write(0x01, 0x80);
    assert_eq!(bench.panel().degrees[2], 0.0);
}

#[test]
fn counts_and_their_ends() {
    let mut bench = Bench::new();
    assert_eq!(bench.speeds(0), [Speed::NotMeasured; 2]);
    assert_eq!(bench.speeds(255), [Speed::Stalled; 2]);
    bench.write(0x20, 0x00);
    let [first, second] = [675_000.0, 337_500.0].map(Speed::Turning);
    assert_eq!(bench.speeds(1), [first, second]);
    bench.write(0x21, 0xFF);
    let [first, second] = [675_000.0 / 254.0, 675_000.0 / 2032.0].map(Speed::Turning);
    assert_eq!(bench.speeds(254), [first, second]);
    // eq. 11 of 000: 5,000 revolutions with N = 2 are a count of 67
    bench.write(0x20, 0x40);
    assert_eq!(bench.speeds(67)[0], Speed::Turning(675_000.0 / 134.0));
}

#[test]
fn each_divisor_on_its_own_fan() {
    let mut bench = Bench::new();
    bench.speeds(100);
    for (bits, revolutions) in [(0, 6750.0), (1, 3375.0), (2, 1687.5), (3, 843.75)] {
        for (fan, register) in [(0, 0x20), (1, 0x21)] {
            bench.write(register, 0x40 * bits + 0x3F);
            bench.write(0x41 - register, 0x40 * (bits ^ 2));
            assert_eq!(bench.panel().speeds[fan], Speed::Turning(revolutions));
        }
    }
}

#[test]
fn a_count_written_over_the_bus() {
    let mut bench = Bench(Keeper::new());
    bench.ev(Kind::Power, 44, 0, 0);
    bench.write(0x08, 100);
    bench.write(0x09, 255);
    assert_eq!(
        bench.panel().speeds,
        [Speed::Turning(3375.0), Speed::Stalled]
    );
    let before = bench.panel();
    assert_eq!(bench.ev(Kind::Tach, 1, 0, 50).answer, 9);
    assert_eq!(bench.ev(Kind::Write, 45, 0x08, 50).answer, 2);
    assert_eq!(bench.ev(Kind::Write, 44, 0x08, 256).answer, 6);
    assert_eq!(bench.panel(), before);
    bench.write(0x08, 0);
    assert_eq!(bench.panel().speeds[0], Speed::NotMeasured);
}

#[test]
fn the_lines_of_a_panel() {
    let samples = ["sample 0 0 -2", "sample 1 0 -1", "sample 2 0 161"];
    let counts = ["tach 1 0 100", "tach 2 0 255"];
    assert_eq!(
        shown(&[&samples[..], &counts].concat()),
        "local=-3\nremote1=-2\nremote2=201\nfan1=3375\nfan2=stalled\n"
    );
    assert_eq!(figures(&[]), ["0", "0", "0", "none", "none"]);
    let low = ["sample 0 0 -1024", "sample 1 0 -1024", "sample 2 0 -1023"];
    assert_eq!(figures(&low)[..3], ["-1280", "-1280", "-1279"]);
    let high = ["sample 0 0 1022", "sample 1 0 1023", "sample 2 0 1020"];
    assert_eq!(figures(&high)[..3], ["1277", "1278", "1275"]);
}

#[test]
fn revolutions_rounded_down() {
    let fast = ["write 44 32 0", "write 44 8 1", "write 44 9 254"];
    assert_eq!(figures(&fast)[3..], ["675000", "1328"]);
    let slow = ["write 44 33 255", "tach 2 0 254", "tach 1 0 0"];
    assert_eq!(figures(&slow)[3..], ["none", "332"]);
    let stalled = ["write 44 33 0", "tach 2 0 7", "tach 1 0 255"];
    assert_eq!(figures(&stalled)[3..], ["stalled", "96428"]);
}

// no quotient lies so near below a whole number that its one rounding reaches it
#[test]
fn the_lines_are_the_panel_rounded_down() {
    let mut bench = Bench::new();
    for bits in 0..4 {
        bench.write(0x20, 0x40 * bits);
        for count in 1..255 {
            let Speed::Turning(speed) = bench.speeds(count)[0] else {
                panic!("no speed at {count}");
            };
            let whole = 675_000 / (count * (1 << bits));
            assert_eq!(speed.floor() as i32, whole);
        }
    }
    for t in -1024..=1023 {
        let tenths = (10.0 * bench.degrees(1, t)).floor() as i32;
        assert_eq!(tenths, (10 * t).div_euclid(8));
    }
}

#[test]
fn texts_without_a_panel() {
    assert_eq!(told(&[]), "answer=1\n");
    assert_eq!(told(&["power 47 0 0", "clock 0 0 0"]), "answer=1\n");
    assert_eq!(panel(b"kind=clock\n"), b"answer=10\n");
    let good = lines(&["power 44 0 0", "clock 0 0 0"]).into_bytes();
    assert_eq!(panel(&good[..good.len() - 1]), b"answer=10\n");
    assert_eq!(panel(&[&good[..], b"kind=x\n"].concat()), b"answer=10\n");
    assert_eq!(panel(&[b'x'; 65_536]), b"answer=10\n");
    assert_eq!(panel(&[b'x'; 65_537]), b"answer=11\n");
}
