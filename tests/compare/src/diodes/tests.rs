use super::{Diodes, REFUSALS};
use crate::table::Table;
use snezhulka::Event;

const POWER: Event = [0, 44, 0, 0];
const CLOCK: Event = [7, 0, 0, 0];
const ALERT: Event = [9, 44, 0, 0];
const RESET: Event = write(0x01, 0x80);
const FOUND: Event = diode(1, 1);
const MENDED: Event = diode(1, 0);

const fn write(register: i32, byte: i32) -> Event {
    [1, 44, register, byte]
}

const fn diode(channel: i32, error: i32) -> Event {
    [10, channel, 0, error]
}

const fn sample(channel: i32, eighths: i32) -> Event {
    [4, channel, 0, eighths]
}

fn counted(events: &[Event]) -> Diodes {
    let mut diodes = Diodes::none();
    diodes.count(events);
    diodes
}

// What these tables have met on the first of the two, or on the second, in words.
fn names(tables: &[Table<2>], place: usize) -> Vec<&'static str> {
    let met = |table: &Table<2>| table.met(place);
    tables.iter().flat_map(met).collect()
}

// What remote 1 meets at the last event and did not meet before.
fn last_met(events: &[Event]) -> Vec<&'static str> {
    let (all, before) = (counted(events), counted(&events[..events.len() - 1]));
    let before = names(&before.channels, 0);
    let all = names(&all.channels, 0);
    all.into_iter().filter(|n| !before.contains(n)).collect()
}

// The same of a fan.
fn fan_met(fan: usize, events: &[Event]) -> Vec<&'static str> {
    let (all, before) = (counted(events), counted(&events[..events.len() - 1]));
    let before = names(&before.fans, fan);
    let all = names(&all.fans, fan);
    all.into_iter().filter(|n| !before.contains(n)).collect()
}

#[test]
fn found_and_mended() {
    let off = ["found", "found, monitoring off"];
    assert_eq!(last_met(&[POWER, FOUND]), off);
    assert_eq!(last_met(&[POWER, FOUND, FOUND]), ["found again"]);
    let off = ["mended", "mended, monitoring off"];
    assert_eq!(last_met(&[POWER, FOUND, MENDED]), off);
    assert_eq!(last_met(&[POWER, MENDED]), ["mended again"]);
    assert!(last_met(&[POWER, diode(2, 1)]).is_empty());
    let hot = [POWER, write(0x00, 0x91), sample(1, 801), FOUND];
    assert_eq!(last_met(&hot), ["found", "found, flag on"]);
    let cold = ["mended", "mended, flag on", "mended, latch on"];
    assert_eq!(last_met(&[&hot[..], &[MENDED]].concat()), cold);
}

#[test]
fn int_by_an_error() {
    let on = [POWER, write(0x00, 0x93)];
    let last = |more: &[Event]| last_met(&[&on[..], more].concat());
    assert_eq!(last(&[FOUND]), ["found", "found, INT by it"]);
    let none = ["found", "found, not enabled, no INT"];
    assert_eq!(last(&[write(0x01, 0x5f), FOUND]), none);
    let hot = sample(0, 488);
    let back = ["found", "let go, found, INT back"];
    assert_eq!(last(&[hot, ALERT, FOUND]), back);
    let back = ["found", "let go, not enabled, back"];
    assert_eq!(last(&[hot, ALERT, write(0x01, 0x5f), FOUND]), back);
    let again = ["found again", "let go, found again"];
    assert_eq!(last(&[FOUND, ALERT, FOUND]), again);
    let mended = ["mended", "let go, mended"];
    assert_eq!(last(&[FOUND, ALERT, MENDED]), mended);
    assert_eq!(last(&[FOUND, ALERT, RESET, FOUND]), ["found again"]);
}

#[test]
fn other_events_while_an_error_stands() {
    let before = "sample, answer=9 before 13";
    assert_eq!(last_met(&[POWER, FOUND, sample(1, 80)]), [before]);
    assert!(last_met(&[POWER, FOUND, sample(2, 80)]).is_empty());
    let broken = [POWER, write(0x00, 0x91), sample(0, 488), FOUND];
    let last = |more: &[Event]| last_met(&[&broken[..], more].concat());
    assert_eq!(last(&[sample(1, 80)]), ["sample, answer=13"]);
    assert_eq!(last(&[sample(2, 80)]), ["sample of the other, done"]);
    assert_eq!(last(&[sample(0, 80)]), ["sample of local, done"]);
    let (point, read) = ([2, 44, 0x02, 0], [3, 44, 0, 0]);
    assert_eq!(last(&[point, read]), ["read clears all but bit 5"]);
    assert!(last(&[point, read, read]).is_empty());
    assert_eq!(last(&[RESET]), ["reset, found in service"]);
    assert_eq!(last(&[POWER]), ["power mends"]);
    assert!(last_met(&[[0, 44, 1, 0], RESET]).is_empty());
}

#[test]
fn fans_as_an_error_is_found_or_mended() {
    let auto = [POWER, write(0x00, 0x91)];
    let last = |more: &[Event]| fan_met(0, &[&auto[..], more].concat());
    assert_eq!(last(&[FOUND]), ["found, spin-up from 0"]);
    let disabled = ["found while disabled", "disabled"];
    assert_eq!(last(&[write(0x01, 0x7e), FOUND]), disabled);
    assert_eq!(last(&[[6, 0, 0, 0], FOUND]), ["found under override"]);
    let warm = sample(1, 392);
    assert_eq!(last(&[warm, FOUND]), ["found while spinning up"]);
    let running = [&[warm][..], &[CLOCK; 20]].concat();
    let full = last(&[&running[..], &[FOUND]].concat());
    let alone = ["240 by remote 1", "demand of remote 1 in error"];
    assert_eq!(full, [&["found, unfiltered to 240"], &alone[..]].concat());
    let lower = last(&[&running[..], &[FOUND, MENDED]].concat());
    assert_eq!(lower, ["mended, lower at once"]);
    let spun = [&[FOUND][..], &[CLOCK; 20], &[MENDED]].concat();
    assert_eq!(last(&spun), ["mended, target 0"]);
}

#[test]
fn a_filtered_fan_on_its_way() {
    let warm = [POWER, write(0x00, 0x91), write(0x23, 0x61), sample(1, 385)];
    let period = [[8, 1, 0, 0]];
    let found = [&warm[..], &[CLOCK; 20], &period, &[FOUND]].concat();
    assert_eq!(fan_met(0, &found), ["found, filtered stays"]);
    let risen = [&found[..], &period].concat();
    let there = ["240 by remote 1", "ramp up towards 240"];
    let named = ["demand of remote 1 in error"];
    assert_eq!(fan_met(0, &risen), [&there[..], &named].concat());
    let other = [&found[..], &[[8, 2, 0, 0]]].concat();
    assert!(fan_met(0, &other).is_empty());
}

#[test]
fn fans_while_an_error_stands() {
    let broken = [0, 44, 1, 0];
    assert_eq!(fan_met(0, &[broken]), ["power with an error"]);
    assert_eq!(fan_met(1, &[broken]), ["not assigned, below 240"]);
    assert_eq!(fan_met(0, &[broken, RESET]), ["reset with an error"]);
    let still = [&[broken, write(0x22, 0)][..], &[CLOCK; 20]].concat();
    let full = ["240, flag off", "240, m 0", "240 by remote 1"];
    let named = ["demand of remote 1 in error"];
    assert_eq!(fan_met(0, &still), [&full[..], &named].concat());
    let manual = [&still[..], &[write(0x22, 0x55), write(0x00, 0x11)]].concat();
    assert_eq!(fan_met(0, &manual), ["manual, below 240"]);
    let all = [&still[..], &[write(0x00, 0xf1), write(0x3f, 0)]].concat();
    let both = [&all[..], &[diode(2, 1)]].concat();
    assert_eq!(fan_met(0, &both), ["demand of remote 1, both"]);
    let local = [&all[..], &[sample(0, 1022)]].concat();
    assert_eq!(fan_met(0, &local), ["demand of local at 240"]);
}

#[test]
fn refused_diode_events() {
    let refused = |events: &[Event]| {
        let counts = counted(events).refusals;
        (0..REFUSALS.len()).find(|&case| counts[case] == 1)
    };
    assert_eq!(refused(&[FOUND]), Some(0));
    assert_eq!(refused(&[POWER, diode(0, 1)]), Some(1));
    assert_eq!(refused(&[POWER, diode(3, 1)]), Some(2));
    assert_eq!(refused(&[POWER, [10, 1, 1, 1]]), Some(3));
    assert_eq!(refused(&[POWER, diode(1, 2)]), Some(4));
    assert_eq!(refused(&[POWER, diode(2, -1)]), Some(5));
    assert_eq!(refused(&[POWER, FOUND]), None);
}

#[test]
fn counts_of_two_are_added() {
    let diodes = counted(&[FOUND, POWER, FOUND]);
    let mut twice = Diodes::none();
    let all = twice.missing().len();
    twice.add(&diodes);
    twice.add(&diodes);
    assert_eq!(twice.refusals[0], 2);
    assert_eq!(names(&twice.channels, 0), names(&diodes.channels, 0));
    assert_eq!((all, twice.missing().len()), (96, 96 - 5));
}
