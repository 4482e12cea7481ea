use super::{panel, FanSpeed, Panel};
use crate::{library, Event};

const POWER: Event = [0, 44, 0, 0];
const MONITORED: Event = [1, 44, 0x00, 0x91];

fn write(register: i32, byte: i32) -> Event {
    [1, 44, register, byte]
}

// The panel after some events, behind power and with monitoring on.
fn after(events: &[Event]) -> Panel {
    panel(&[&[POWER, MONITORED], events].concat()).expect("there is power")
}

fn temperatures(shown: Panel) -> [f64; 3] {
    [shown.local, shown.remote1, shown.remote2]
}

#[test]
fn after_power_nothing_is_measured() {
    let shown = panel(&[POWER]).expect("there is power");
    assert_eq!(temperatures(shown), [0.0; 3]);
    assert!(temperatures(shown).iter().all(|t| t.is_sign_positive()));
    assert_eq!(shown.fan1, FanSpeed::NotMeasured);
    assert_eq!(shown.fan2, FanSpeed::NotMeasured);
}

#[test]
fn a_temperature_is_the_reading_over_8_exactly() {
    let shown = after(&[[4, 0, 0, 202], [4, 1, 0, 161], [4, 2, 0, -1]]);
    assert_eq!(temperatures(shown), [25.25, 20.125, -0.125]);
    for reading in -1024..=1023 {
        let local = reading / 2 * 2;
        let shown = after(&[
            [4, 0, 0, local],
            [4, 1, 0, reading],
            [4, 2, 0, -reading - 1],
        ]);
        let due = [local, reading, -reading - 1].map(|eighths| f64::from(eighths) / 8.0);
        assert_eq!(temperatures(shown), due);
    }
}

#[test]
fn a_reading_has_its_offset_and_is_held() {
    let (plus, minus) = (write(0x0e, 0x0f), write(0x0f, 0x83));
    let shown = after(&[plus, minus, [4, 1, 0, 1000], [4, 2, 0, -1010]]);
    assert_eq!(temperatures(shown), [0.0, 127.875, -128.0]);
    // An offset acts from the next sample on.
    let shown = after(&[[4, 1, 0, 137], plus, [4, 0, 0, 1000], write(0x0d, 0x0f)]);
    assert_eq!(temperatures(shown), [125.0, 17.125, 0.0]);
    assert_eq!(after(&[write(0x0d, 0x0f), [4, 0, 0, 1000]]).local, 127.75);
}

#[test]
fn a_broken_diode_keeps_its_last_reading_and_a_reset_none() {
    let sampled: [Event; 2] = [[4, 1, 0, 161], [4, 2, 0, -1]];
    let found: Event = [10, 1, 0, 1];
    let broken = [&sampled[..], &[found, [4, 1, 0, 400]]].concat();
    assert_eq!(temperatures(after(&broken)), [0.0, 20.125, -0.125]);
    let counted = [&broken[..], &[[5, 1, 0, 100], write(0x01, 0xff)]].concat();
    assert_eq!(panel(&[POWER]), Ok(after(&counted)));
}

#[test]
fn a_speed_is_one_rounded_division() {
    for (bits, range) in [(0x00, 1), (0x40, 2), (0x80, 4), (0xc0, 8)] {
        for count in 1..255 {
            let events = [write(0x20, bits), write(0x21, bits | 0x3f)];
            let shown = after(&[&events[..], &[[5, 1, 0, count], [5, 2, 0, 255 - count]]].concat());
            let due = |count| FanSpeed::Speed(675_000.0 / f64::from(count * range));
            assert_eq!(shown.fan1, due(count), "count {count}, range {range}");
            assert_eq!(shown.fan2, due(255 - count), "range {range}");
        }
    }
}

#[test]
fn a_fan_is_not_measured_or_stalled_by_its_count_alone() {
    let counts = |one, two| {
        let shown = after(&[[5, 1, 0, one], [5, 2, 0, two]]);
        (shown.fan1, shown.fan2)
    };
    let (none, stalled) = (FanSpeed::NotMeasured, FanSpeed::Stalled);
    assert_eq!(counts(0, 255), (none, stalled));
    assert_eq!(counts(255, 0), (stalled, none));
    let slowest = FanSpeed::Speed(675_000.0 / 508.0);
    assert_eq!(counts(254, 1), (slowest, FanSpeed::Speed(337_500.0)));
}

#[test]
fn count_and_range_are_those_of_the_registers() {
    let counted: [Event; 2] = [[5, 1, 0, 100], [5, 2, 0, 100]];
    let ranged = [&counted[..], &[write(0x20, 0x80)]].concat();
    let shown = after(&ranged);
    assert_eq!(shown.fan1, FanSpeed::Speed(1687.5));
    assert_eq!(shown.fan2, FanSpeed::Speed(3375.0));
    let written = [&counted[..], &[write(0x08, 0), write(0x09, 50)]].concat();
    let shown = after(&written);
    assert_eq!(shown.fan1, FanSpeed::NotMeasured);
    assert_eq!(shown.fan2, FanSpeed::Speed(6750.0));
}

#[test]
fn a_refused_event_changes_no_figure() {
    let events: [Event; 3] = [[4, 0, 0, 202], [5, 1, 0, 100], write(0x21, 0)];
    let refused: [Event; 5] = [
        [4, 0, 0, 203],
        [4, 3, 0, 8],
        [5, 3, 0, 9],
        [1, 45, 0x20, 0],
        [0, 47, 0, 0],
    ];
    assert_eq!(after(&[&events[..], &refused[..]].concat()), after(&events));
}

#[test]
fn no_panel_before_power_and_none_of_another_kind() {
    assert_eq!(panel(&[]), Err(1));
    assert_eq!(panel(&[MONITORED, [0, 47, 0, 0]]), Err(1));
    for kind in [-1, 11, i32::MIN, i32::MAX] {
        let foreign = [kind, 0, 0, 0];
        assert_eq!(panel(&[POWER, foreign]), Err(10), "kind {kind}");
        // 10 goes before 1.
        assert_eq!(panel(&[foreign, POWER]), Err(10), "kind {kind}");
        assert_eq!(panel(&[foreign]), Err(10), "kind {kind}");
    }
}

// Places of figures and cases.
type Room = (usize, usize);
const ROOM: Room = (5, 2);

// What the library gives for so many numbers of some events, and both buffers.
fn given(events: &[Event], count: usize, room: Room) -> (usize, Vec<f64>, Vec<u8>) {
    let numbers = events.as_flattened();
    assert!(count <= numbers.len());
    let (mut figures, mut cases) = (vec![-7.5; room.0], vec![0xaa; room.1]);
    // Safety: `count` is within the slice, each buffer goes with its own length, and they don't overlap.
    let number = unsafe {
        library::snezhulka_panel(
            numbers.as_ptr(),
            count,
            figures.as_mut_ptr(),
            figures.len(),
            cases.as_mut_ptr(),
            cases.len(),
        )
    };
    (number, figures, cases)
}

#[test]
fn places_behind_the_panel_stay() {
    let events = [POWER, MONITORED, [4, 2, 0, -1], [5, 2, 0, 255]];
    let (number, figures, cases) = given(&events, 16, (7, 4));
    assert_eq!(number, 0);
    assert_eq!(figures, [0.0, 0.0, -0.125, 0.0, 0.0, -7.5, -7.5]);
    assert_eq!(cases, [0, 1, 0xaa, 0xaa]);
}

#[test]
fn buffers_of_a_panel_that_is_refused_stay() {
    let foreign: Event = [11, 0, 0, 0];
    let refused = [
        ([POWER, POWER], 0, ROOM, 1),
        ([MONITORED, MONITORED], 8, ROOM, 1),
        ([POWER, foreign], 8, (9, 9), 10),
        ([foreign, POWER], 8, ROOM, 10),
        ([foreign, foreign], 4, ROOM, 10),
        ([POWER, POWER], 8, (4, 2), 11),
        ([POWER, POWER], 8, (5, 1), 11),
        ([POWER, POWER], 8, (0, 0), 11),
        ([POWER, POWER], 7, ROOM, 11),
        ([POWER, POWER], 5, ROOM, 11),
        ([POWER, POWER], 1, ROOM, 11),
        // 11 goes before 10, and before 1.
        ([foreign, foreign], 8, (4, 2), 11),
        ([foreign, POWER], 6, ROOM, 11),
        ([MONITORED, MONITORED], 8, (5, 1), 11),
    ];
    for (events, count, room, due) in refused {
        let (number, figures, cases) = given(&events, count, room);
        let name = format!("{events:?}, {count} numbers, room {room:?}");
        assert_eq!(number, due, "{name}");
        assert!(figures.iter().all(|&figure| figure == -7.5), "{name}");
        assert!(cases.iter().all(|&case| case == 0xaa), "{name}");
    }
}
