use super::cases::CALLS;
use super::course::{Course, BESIDE};
use super::fans::{AFRESH, DUTY, TURN};
use super::rooms::{few, Call, NO_KINDS};
use super::{differs, lists, proved, safe, second, shown, Ages, MARKER};
use crate::{events, traces};
use snezhulka::Event;

const POWER: Event = [0, 44, 0, 0];
const CLOCK: Event = [7, 0, 0, 0];
const LOW: Event = [6, 0, 0, 0];
const HIGH: Event = [6, 0, 0, 1];
const RESET: Event = write(0x01, 0x80);
const BY_HAND: Event = write(0x00, 0x11);

const fn write(register: i32, byte: i32) -> Event {
    [1, 44, register, byte]
}

fn counted(events: &[Event]) -> Ages {
    let mut ages = Ages::none();
    ages.count_list(events);
    ages
}

// What a fan meets at the last event and did not meet before.
fn met(fan: usize, events: &[Event]) -> Vec<&'static str> {
    let names = |ages: &Ages| -> Vec<_> { ages.fans.iter().flat_map(|f| f.met(fan)).collect() };
    let before = names(&counted(&events[..events.len() - 1]));
    let all = names(&counted(events));
    all.into_iter().filter(|n| !before.contains(n)).collect()
}

// The same of what is met beside.
fn beside(events: &[Event]) -> Vec<&'static str> {
    let (all, before) = (counted(events), counted(&events[..events.len() - 1]));
    let more = all
        .beside
        .iter()
        .zip(before.beside)
        .map(|(all, b)| all > &b);
    let cases = BESIDE.into_iter().zip(more);
    cases.filter(|case| case.1).map(|case| case.0).collect()
}

#[test]
fn three_numbers_an_event() {
    let events = [CLOCK, POWER, CLOCK, CLOCK, LOW, CLOCK];
    let told = [0, 0, 0, 0, 0, 0, 1, 1, 1, 2, 2, 2, 2, 0, 0, 3, 1, 1];
    let longer = [&told[..], &[MARKER]].concat();
    for given in [proved, second] {
        assert_eq!(given(events.as_flattened(), 19), (18, longer.clone()));
        assert_eq!(
            given(events.as_flattened(), 17),
            (usize::MAX, vec![MARKER; 17])
        );
        assert_eq!(given(&[0, 44, 0, 0, 7], 9), (usize::MAX, vec![MARKER; 9]));
        let ended = vec![0, 0, 0, MARKER, MARKER, MARKER];
        assert_eq!(given(&[0, 44, 0, 0, 263, 0, 0, 0], 6), (3, ended));
        assert_eq!(given(&[], 0), (0, vec![]));
    }
    assert_eq!(safe(&events), told);
    let words = "after event 6, stamp and ages:\nkeeper:\n  [3, 1, 1]\n";
    assert!(shown(&events).starts_with(words));
}

#[test]
fn every_room_for_a_few_events() {
    let calls = few();
    let any = |case: &dyn Fn(&Call) -> bool| calls.iter().any(case);
    for events in 0..=6 {
        let room = 3 * events;
        for length in 0..=room + 4 {
            let of = |call: &Call| call.events() == events && call.length == length;
            assert!(any(&|call| of(call)
                && call.is_whole()
                && !call.ends_early()));
            assert!(any(&|call| of(call) && !call.is_whole()));
            assert_eq!(any(&|call| of(call) && call.ends_early()), events > 0);
        }
    }
    for kind in &NO_KINDS[..6] {
        assert!(any(&|call| call.numbers.contains(kind)), "{kind}");
    }
    assert!(!calls.iter().any(differs));
}

#[test]
fn starts_and_stops() {
    assert_eq!(met(0, &[POWER, LOW]), ["start, stamp 0"]);
    let first = [POWER, CLOCK, LOW];
    assert_eq!(met(0, &first), ["start"]);
    assert_eq!(met(1, &[POWER, CLOCK]), ["clock, never started"]);
    let stopped = [&first[..], &[CLOCK, HIGH]].concat();
    assert_eq!(met(0, &stopped), ["stop"]);
    let later = [&stopped[..], &[CLOCK]].concat();
    assert_eq!(met(0, &later), ["clock, duty 0 after a stop"]);
    assert_eq!(met(1, &[&later[..], &[LOW]].concat()), ["start again"]);
    let refused = [&first[..], &[CLOCK, [7, 1, 0, 0]]].concat();
    assert_eq!(met(0, &refused), ["refused, age above 0"]);
}

#[test]
fn changes_that_are_no_start() {
    let runs = [&[POWER, write(0x10, 100), BY_HAND][..], &[CLOCK; 19]].concat();
    let last = |more: &[Event]| met(0, &[&runs[..], &[CLOCK], more].concat());
    assert_eq!(last(&[]), ["spin-up over, no start"]);
    assert_eq!(last(&[LOW]), ["override, no start"]);
    assert_eq!(last(&[LOW, HIGH]), ["override over, no start"]);
    assert_eq!(last(&[write(0x22, 0x66)]), ["new target, no start"]);
    assert_eq!(last(&[[5, 1, 0, 101]]), ["failed count, no start"]);
    assert!(last(&[[5, 1, 0, 100]]).is_empty());
    let slow = [write(0x23, 1), write(0x22, 0x66), [8, 1, 0, 0]];
    assert_eq!(last(&slow), ["ramp step, no start"]);
}

#[test]
fn power_and_reset() {
    let broken = [0, 44, 1, 0];
    assert_eq!(met(0, &[POWER, CLOCK, RESET]), ["reset, duty 0"]);
    let low = [POWER, CLOCK, LOW, CLOCK];
    let last = |event| met(0, &[&low[..], &[event]].concat());
    assert_eq!(last(RESET), ["reset, runs on by the pin"]);
    assert_eq!(last(POWER), ["power, age above 0"]);
    assert_eq!(
        last(broken),
        ["power, age above 0", "power, runs on by a diode"]
    );
    let off = [POWER, write(0x01, 0x7e), LOW, CLOCK, RESET];
    assert_eq!(met(0, &off), ["reset, starts"]);
    assert_eq!(
        met(0, &[broken, CLOCK, RESET]),
        ["reset, runs on by a diode"]
    );
    assert_eq!(met(0, &[POWER, BY_HAND, CLOCK, RESET]), ["reset, stops"]);
    assert_eq!(met(1, &[POWER, CLOCK, RESET, POWER]), ["power, age 0"]);
    let started = ["power, age above 0", "power, starts by a diode"];
    assert_eq!(met(0, &[POWER, CLOCK, broken]), started);
    assert!(met(0, &[POWER, broken, RESET]).is_empty());
}

#[test]
fn beside_the_fans() {
    assert_eq!(beside(&[LOW]), ["before power", "ages alike"]);
    let unpowered = ["before power", "clock, answer=1", "ages alike"];
    assert_eq!(beside(&[CLOCK]), unpowered);
    let last = |event| beside(&[POWER, CLOCK, event]);
    assert_eq!(last([7, 0, 0, 1]), ["clock, answer=6", "ages alike"]);
    assert_eq!(last([0, 47, 0, 0])[0], "refused power, stamp above 0");
    assert_eq!(last([1, 45, 1, 0x80])[0], "refused reset, stamp above 0");
    assert_eq!(last([10, 2, 0, 1]), ["ages that differ"]);
    let turn = [vec![POWER], vec![CLOCK; 65_535]].concat();
    assert_eq!(beside(&turn), ["stamp 65,535", "ages alike"]);
    let over = [&turn[..], &[CLOCK]].concat();
    assert_eq!(beside(&over), ["stamp back at 0", "ages alike"]);
}

#[test]
fn ages_are_the_clocks_counted() {
    let mut lists = lists::lists(2);
    let texts = (0..200).map(|index| traces::trace(2, index));
    lists.extend(texts.filter_map(|text| events::events_of(&text)));
    for events in lists {
        let mut course = Course::new();
        for event in &events {
            course.take(event, &mut |step| {
                assert_eq!(step.new.stamp() as u64, step.total % 65_536);
                let ages = [0, 1].map(|fan| step.new.age(fan) as u64);
                assert_eq!(ages, step.clocks.map(|clocks| clocks % 65_536));
            });
        }
    }
}

#[test]
fn every_seed_has_its_turns() {
    for seed in [1, 2, 3, u64::MAX] {
        let mut ages = Ages::none();
        for events in lists::lists(seed) {
            assert!((65_000..200_000).contains(&events.len()));
            ages.count_list(&events);
        }
        for fan in 0..2 {
            assert_eq!(ages.fans[2].met(fan), TURN, "seed {seed}");
        }
    }
}

#[test]
fn counts_of_two_are_added() {
    let mut twice = Ages::none();
    let all = twice.missing().len();
    let fans = DUTY.len() + AFRESH.len() + TURN.len();
    assert_eq!(all, 2 * fans + BESIDE.len() + CALLS.len());
    let mut ages = Ages::none();
    ages.count(&[CLOCK, POWER, LOW], 0);
    twice.add(&ages);
    twice.add(&ages);
    assert_eq!((ages.events, twice.events), (3, 6));
    assert_eq!((ages.beside[0], twice.beside[0]), (1, 2));
    assert_eq!(twice.calls, ages.calls.map(|count| 2 * count));
    assert_eq!(twice.missing(), ages.missing());
    assert!(ages.missing().len() < all);
}
