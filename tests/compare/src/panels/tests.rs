use super::asked::{asked, EACH, FIRST, WHOLE};
use super::course::{CHANNEL, FAN, REMOTE};
use super::refusals::{calls, short_rooms};
use super::{both, differs_at_the_end, proved, refused, safe, Panels, ENOUGH};
use snezhulka::Event;

const POWER: Event = [0, 44, 0, 0];
const START: [Event; 2] = [POWER, write(0x00, 0x91)];

const fn write(register: i32, byte: i32) -> Event {
    [1, 44, register, byte]
}

const fn sample(channel: i32, eighths: i32) -> Event {
    [4, channel, 0, eighths]
}

const fn tach(fan: i32, count: i32) -> Event {
    [5, fan, 0, count]
}

fn after_start(events: &[Event]) -> Vec<Event> {
    [&START[..], events].concat()
}

// What the fans meet after the last of these events, in words.
fn fans(events: &[Event]) -> [Vec<&'static str>; 2] {
    let mut panels = Panels::none();
    panels.count_after(&after_start(events));
    [0, 1].map(|fan| panels.fans.met(fan))
}

// What a channel meets, and a remote one beside.
fn channel(channel: usize, events: &[Event]) -> Vec<&'static str> {
    let mut panels = Panels::none();
    panels.count_after(&after_start(events));
    let mut met = panels.channels.met(channel);
    if channel > 0 {
        met.extend(panels.remotes.met(channel - 1));
    }
    met
}

// After how many events of so many the panels are asked for.
fn places(events: usize, index: u64) -> Vec<usize> {
    let asked = asked(&vec![POWER; events], index);
    asked.iter().map(|asked| asked.count).collect()
}

#[test]
fn places_are_in_order() {
    for index in 0..100 {
        for events in [0, 1, FIRST, 3 * FIRST] {
            let places = places(events, index);
            assert!(places.is_sorted_by(|place, next| place < next));
            assert!(places.last() <= Some(&events));
            assert!(places.ends_with(&[events]) || !index.is_multiple_of(WHOLE));
        }
    }
    let first: Vec<usize> = (0..=FIRST).collect();
    assert!(places(3 * FIRST, EACH).starts_with(&first));
}

#[test]
fn events_of_its_own_have_the_address() {
    let powers = [[0, 45, 1, 0], [0, 46, 0, 0], [0, 47, 0, 0], [0, 44, 2, 0]];
    for index in 0..40 {
        for asked in asked(&powers, index) {
            let address = [44, 45, 46, 46, 46][asked.count];
            let mut writes = asked.more.iter().filter(|event| event[0] == 1);
            assert!(writes.all(|event| event[1] == address));
        }
    }
}

#[test]
fn a_panel_in_its_buffers() {
    let events = after_start(&[sample(1, -1), tach(1, 7), tach(2, 255)]);
    let figures = [0.0, -0.125, 0.0, 675_000.0 / 14.0, 0.0];
    let bits = figures.map(f64::to_bits).to_vec();
    for given in both(&events) {
        assert_eq!(given, (0, bits.clone(), vec![2, 1]));
    }
    let (number, longer, cases) = proved(events.as_flattened(), ENOUGH[3]);
    assert_eq!((number, &longer[..5]), (0, &bits[..]));
    assert_eq!(
        (longer[5], cases),
        (0xaaaa_aaaa_aaaa_aaaa, vec![2, 1, 0xaa])
    );
    assert_eq!(both(&[tach(1, 7)])[0], refused(1, ENOUGH[0]));
    assert_eq!(safe(&events), both(&events)[1]);
    assert_eq!(safe(&events[1..]), refused(1, ENOUGH[0]));
    assert!(!differs_at_the_end(&events));
}

#[test]
fn every_short_room_comes() {
    let rooms = short_rooms();
    assert_eq!(rooms.len(), 24);
    assert!(rooms.iter().all(|room| room.0 < 5 || room.1 < 2));
    for (index, room) in rooms.into_iter().enumerate() {
        let calls = calls(&START, index as u64);
        assert_eq!(calls[0].room, room);
        assert_eq!(calls.map(|call| call.number), [11, 11, 10, 11, 11]);
    }
}

#[test]
fn counts_and_where_they_come_from() {
    let never = vec!["not measured"];
    let both = ["not measured", "not measured, by a tach"];
    assert_eq!(fans(&[tach(1, 0)]), [both.to_vec(), never]);
    let stalled = ["stalled", "stalled, by a write"];
    assert_eq!(fans(&[write(0x09, 255)])[1], stalled);
    let events = [tach(1, 254), write(0x08, 1), write(0x20, 0x80)];
    let speed = ["speed, divisor 4", "speed, by a write"];
    let whole = ["speed, whole", "speed, count 1"];
    let range = ["speed, divisor since changed", "speed, other fan's differs"];
    let still = ["speed, duty 0"];
    assert_eq!(
        fans(&events)[0],
        [&speed[..], &whole, &range, &still].concat()
    );
    let refused = [tach(2, 254), tach(2, 256)];
    let speed = ["speed, divisor 2", "speed, by a tach", "speed, not whole"];
    let last = [
        "speed, count 254",
        "speed, duty 0",
        "speed, after a refusal",
    ];
    assert_eq!(fans(&refused)[1], [speed, last].concat());
    assert_eq!(
        fans(&[tach(1, 100), write(0x01, 0x80)])[0],
        ["not measured"]
    );
}

#[test]
fn readings_and_their_tenths() {
    assert_eq!(channel(0, &[]), ["0 degrees"]);
    assert_eq!(channel(0, &[sample(0, -2)]), ["below 0, no whole tenths"]);
    assert_eq!(channel(1, &[sample(1, -4)]), ["below 0, whole tenths"]);
    assert_eq!(channel(2, &[sample(2, 161)]), ["above 0, no whole tenths"]);
    let lowest = ["below 0, whole tenths", "the lowest"];
    assert_eq!(channel(2, &[sample(2, -1024)]), lowest);
    let highest = ["above 0, no whole tenths", "the highest"];
    assert_eq!(channel(0, &[sample(0, 1022)]), highest);
    assert_eq!(channel(1, &[sample(1, 1023)]), highest);
    let offset = ["above 0, whole tenths", "not as sampled"];
    assert_eq!(channel(1, &[write(0x0e, 0x03), sample(1, 8)]), offset);
}

#[test]
fn readings_of_a_broken_diode() {
    let broken = [sample(1, -1), [10, 1, 0, 1]];
    let kept = ["below 0, no whole tenths", "in error, not 0"];
    let rounded = [&kept[..], &["in error, no whole tenths"]].concat();
    assert_eq!(channel(1, &broken), rounded);
    let again = [&broken[..], &[sample(1, 80)]].concat();
    let refused = [&rounded[..], &["in error, sample refused"]].concat();
    assert_eq!(channel(1, &again), refused);
    assert_eq!(channel(2, &[[10, 2, 0, 1]]), ["0 degrees"]);
}

#[test]
fn counts_of_two_are_added() {
    let mut panels = Panels::none();
    let all = panels.missing().len();
    assert_eq!(
        all,
        2 * FAN.len() + 3 * CHANNEL.len() + 2 * REMOTE.len() + 7 + 24
    );
    for index in 0..24 {
        panels.count(&START, index);
    }
    let mut twice = Panels::none();
    twice.add(&panels);
    twice.add(&panels);
    let missing = panels.missing();
    assert!(missing.len() < all - 7 - 24 && missing == twice.missing());
    assert_eq!(panels.rooms, vec![2; 24]);
    assert_eq!(twice.rooms, vec![4; 24]);
}
