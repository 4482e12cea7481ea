use super::{ages, Ages};
use crate::{library, steps, Event};

const POWER: Event = [0, 44, 0, 0];
const RESET: Event = [1, 44, 0x01, 0xff];
const LOW: Event = [6, 0, 0, 0];
const HIGH: Event = [6, 0, 0, 1];
const CLOCK: Event = [7, 0, 0, 0];
// Both fans by hand, as 0x22 has their speeds: code 5 after power.
const MANUAL: Event = [1, 44, 0x00, 0x11];

// The codes of fan 2 and fan 1.
fn speeds(byte: i32) -> Event {
    [1, 44, 0x22, byte]
}

fn told([stamp, one, two]: [u16; 3]) -> Ages {
    let age = [one, two];
    Ages { stamp, age }
}

// Each event with the stamp and the ages that are due after it.
fn hold(rows: &[(Event, [u16; 3])]) {
    let events: Vec<Event> = rows.iter().map(|row| row.0).collect();
    let due: Vec<Ages> = rows.iter().map(|row| told(row.1)).collect();
    assert_eq!(ages(&events), due);
}

fn last(events: &[Event]) -> Ages {
    *ages(events).last().expect("there is an event")
}

#[test]
fn an_age_counts_from_the_start_of_its_fan() {
    hold(&[
        (POWER, [0, 0, 0]),
        ([1, 44, 0x20, 0x58], [0, 0, 0]), // a spin-up of two clocks
        (speeds(0x05), [0, 0, 0]),
        (CLOCK, [1, 1, 1]),
        (MANUAL, [1, 0, 1]),
        (CLOCK, [2, 1, 2]),
        (CLOCK, [3, 2, 3]),
        (speeds(0x59), [3, 2, 0]), // fan 1 from 80 to 144 slots, which is no start; fan 2 from 0
        (CLOCK, [4, 3, 1]),
    ]);
}

#[test]
fn an_age_goes_on_at_duty_0_and_begins_again_with_the_next_start() {
    hold(&[
        (POWER, [0, 0, 0]),
        (MANUAL, [0, 0, 0]),
        (CLOCK, [1, 1, 1]),
        (speeds(0x50), [1, 1, 1]),
        (CLOCK, [2, 2, 2]),
        (CLOCK, [3, 3, 3]),
        (speeds(0x55), [3, 0, 3]),
        (CLOCK, [4, 1, 4]),
    ]);
}

#[test]
fn a_reset_keeps_the_stamp_and_sets_both_ages_to_0() {
    hold(&[
        (POWER, [0, 0, 0]),
        (CLOCK, [1, 1, 1]),
        (LOW, [1, 0, 0]),
        (CLOCK, [2, 1, 1]),
        (RESET, [2, 0, 0]), // both turn through it
        (CLOCK, [3, 1, 1]),
        (HIGH, [3, 1, 1]), // and stop
        (CLOCK, [4, 2, 2]),
        (MANUAL, [4, 0, 0]),
        (speeds(0x05), [4, 0, 0]),
        (CLOCK, [5, 1, 1]),
        (RESET, [5, 0, 0]), // it stops fan 1, and fan 2 stands
        (CLOCK, [6, 1, 1]),
        ([1, 44, 0x01, 0x7f], [6, 1, 1]), // no reset
    ]);
}

#[test]
fn power_sets_all_to_0_also_where_it_starts_a_fan() {
    let broken: Event = [0, 44, 1, 0];
    hold(&[
        (POWER, [0, 0, 0]),
        (CLOCK, [1, 1, 1]),
        (LOW, [1, 0, 0]),
        (CLOCK, [2, 1, 1]),
        (POWER, [0, 0, 0]),
        (CLOCK, [1, 1, 1]),
        (broken, [0, 0, 0]),
        (CLOCK, [1, 1, 1]),
    ]);
    let mut outcomes = [[0; 7]; 1];
    assert_eq!(steps(&[broken], &mut outcomes), Ok(1));
    assert_eq!(outcomes[0][5..], [240, 0]);
}

#[test]
fn refused_events_count_nothing() {
    let refused: [Event; 6] = [
        [7, 1, 0, 0],
        [7, 0, 1, 0],
        [7, 0, 0, -1],
        [0, 47, 0, 0],
        [1, 45, 0x01, 0xff],
        [1, 44, 0x01, 0x1ff],
    ];
    for event in refused {
        hold(&[
            (POWER, [0, 0, 0]),
            (CLOCK, [1, 1, 1]),
            (LOW, [1, 0, 0]),
            (CLOCK, [2, 1, 1]),
            (event, [2, 1, 1]),
            (CLOCK, [3, 2, 2]),
        ]);
    }
}

#[test]
fn all_are_0_before_power() {
    hold(&[
        (CLOCK, [0, 0, 0]),
        (LOW, [0, 0, 0]),
        ([0, 47, 0, 0], [0, 0, 0]),
        (CLOCK, [0, 0, 0]),
        (POWER, [0, 0, 0]),
        (CLOCK, [1, 1, 1]),
    ]);
}

// So many clocks, more than a trace text can have.
fn clocks(count: usize) -> Vec<Event> {
    vec![CLOCK; count]
}

#[test]
fn stamp_and_ages_wrap() {
    // Fan 1 starts 100 clocks after power, fan 2 never.
    let events = [&[POWER, speeds(0x05)], &clocks(100)[..], &[MANUAL]].concat();
    let after = |count| last(&[&events[..], &clocks(count)].concat());
    assert_eq!(after(0), told([100, 0, 100]));
    assert_eq!(after(65_435), told([65_535, 65_435, 65_535]));
    assert_eq!(after(65_436), told([0, 65_436, 0]));
    assert_eq!(after(65_535), told([99, 65_535, 99]));
    assert_eq!(after(65_536), told([100, 0, 100]));
    assert_eq!(after(2 * 65_536 + 7), told([107, 7, 107]));
}

#[test]
fn behind_a_stamp_that_has_wrapped_all_goes_on() {
    let wrapped = [&[POWER], &clocks(65_540)[..]].concat();
    let turns = [&wrapped[..], &[MANUAL], &clocks(65_535)].concat();
    assert_eq!(last(&turns), told([3, 65_535, 65_535]));
    let reset = [&wrapped[..], &[LOW, RESET], &clocks(3)].concat();
    assert_eq!(last(&reset), told([7, 3, 3]));
    let powered = [&wrapped[..], &[POWER], &clocks(3)].concat();
    assert_eq!(last(&powered), told([3, 3, 3]));
}

#[test]
fn ages_end_where_a_kind_is_none() {
    for kind in [-1, 11, i32::MIN, i32::MAX] {
        let given = ages(&[POWER, CLOCK, [kind, 0, 0, 0], CLOCK]);
        assert_eq!(given, [told([0, 0, 0]), told([1, 1, 1])], "kind {kind}");
    }
    assert!(ages(&[]).is_empty());
}

// What the library gives for so many numbers of some events, and a buffer of so many places.
fn given(events: &[Event], count: usize, room: usize) -> (usize, Vec<u16>) {
    let numbers = events.as_flattened();
    assert!(count <= numbers.len());
    let mut places = vec![0xaaaa; room];
    // Safety: `count` is within the slice, the buffer goes with its own length, and they don't overlap.
    let end =
        unsafe { library::snezhulka_ages(numbers.as_ptr(), count, places.as_mut_ptr(), room) };
    (end, places)
}

#[test]
fn a_buffer_of_the_wrong_size_stays_as_it_was() {
    for (count, room) in [(8, 5), (8, 0), (7, 6), (5, 6), (1, 6)] {
        let due = (usize::MAX, vec![0xaaaa; room]);
        assert_eq!(given(&[POWER, CLOCK], count, room), due);
    }
    // Room for all events is asked also where a kind ends them.
    let due = (usize::MAX, vec![0xaaaa; 5]);
    assert_eq!(given(&[POWER, [11, 0, 0, 0]], 8, 5), due);
}

#[test]
fn places_behind_the_ages_stay() {
    let (end, places) = given(&[POWER, CLOCK, [11, 0, 0, 0]], 12, 10);
    assert_eq!(end, 6);
    assert_eq!(places[..6], [0, 0, 0, 1, 1, 1]);
    assert_eq!(places[6..], [0xaaaa; 4]);
}
