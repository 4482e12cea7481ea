use super::{Facts, CASES, REASONS};
use snezhulka::Event;

const POWER: Event = [0, 44, 0, 0];
const CLOCK: Event = [7, 0, 0, 0];

fn write(register: i32, byte: i32) -> Event {
    [1, 44, register, byte]
}

// What each fan met, in words: reasons given with those that hold too, and cases, each once.
fn met(events: &[Event]) -> [Vec<String>; 2] {
    let mut facts = Facts::none();
    facts.count(events);
    [0, 1].map(|fan| {
        let mut names = Vec::new();
        for (place, counts) in facts.given[fan].iter().enumerate() {
            let held = (0..REASONS.len()).filter(|&too| counts[too] > 0);
            let held: Vec<&str> = held.map(|too| REASONS[too]).collect();
            names.extend((counts[place] > 0).then(|| held.join("+")));
        }
        let cases = CASES.iter().zip(facts.cases[fan]).filter(|case| case.1 > 0);
        names.extend(cases.map(|(name, _)| name.to_string()));
        names
    })
}

#[test]
fn before_power_and_at_refused_events() {
    assert_eq!(met(&[CLOCK]), [["before power"], ["before power"]]);
    assert_eq!(met(&[POWER]), [["zero+demand"], ["zero+demand"]]);
    let refused = ["zero+demand", "a refused event"];
    assert_eq!(met(&[POWER, [8, 3, 0, 0]]), [refused, refused]);
}

#[test]
fn a_spin_up_ends_where_the_fan_is_disabled() {
    let events = [POWER, write(0x00, 0x11), write(0x01, 0x7e)];
    let [first, second] = met(&events);
    let spin = ["zero+demand", "spin+manual+demand"];
    let disabled = [
        "disabled+manual+demand",
        "zero+demand",
        "spin+manual+demand",
    ];
    assert_eq!(first, [&disabled[..], &["disabled, from spin"]].concat());
    assert_eq!(second, spin);
}

#[test]
fn a_latch_of_a_channel_that_a_fan_does_not_follow() {
    let events = [POWER, write(0x00, 0x91), write(0x22, 0), [4, 1, 0, 801]];
    let [first, second] = met(&events);
    assert_eq!(
        first,
        ["therm+spin+demand", "zero+demand", "therm, remote 1"]
    );
    let unassigned = ["therm+zero+spin+demand", "zero+demand"];
    let cases = ["therm, remote 1", "therm, not assigned"];
    assert_eq!(second, [unassigned, cases].concat());
}

#[test]
fn ties_and_hotter_channels() {
    let all = [POWER, write(0x00, 0xf1), write(0x20, 0), write(0x21, 0)];
    let follow = |range, samples: [Event; 2]| {
        let controls = [write(0x25, 3), write(0x26, range)];
        let events = [&all[..], &controls, &samples, &[CLOCK, CLOCK]].concat();
        let [first, second] = met(&events);
        assert_eq!(first, second);
        first[2..].to_vec()
    };
    let tie = ["demand", "demand, remote 1", "demand, tie below"];
    assert_eq!(follow(3, [[4, 1, 0, 160], [4, 2, 0, 160]]), tie);
    let full = ["demand", "demand, remote 1", "demand, tie at 240"];
    assert_eq!(follow(3, [[4, 1, 0, 330], [4, 2, 0, 320]]), full);
    let hotter = ["demand", "demand, remote 2", "demand, not hottest"];
    assert_eq!(follow(0, [[4, 1, 0, 160], [4, 2, 0, 150]]), hotter);
}

#[test]
fn ramps_and_what_follows_them() {
    let manual = [POWER, write(0x23, 0x63), write(0x00, 0x11)];
    let down = [&manual[..], &[CLOCK; 20]].concat();
    let both = |events: &[Event]| {
        let [first, second] = met(events);
        assert_eq!(first, second);
        first
    };
    let spin = [
        "zero+demand",
        "spin+ramp+manual+demand",
        "ramp+manual+demand",
    ];
    assert_eq!(both(&down), [&spin[..], &["ramp down"]].concat());
    let up = [&down[..], &[write(0x22, 0xff)]].concat();
    let there = [
        &spin[..],
        &["manual+demand", "ramp down", "manual, filter on"],
    ]
    .concat();
    assert_eq!(both(&up), there);
    let slow = [&up[..], &[write(0x23, 0x00), write(0x22, 0x11)]].concat();
    let again = [&slow[..], &[write(0x23, 0x03), write(0x22, 0x22)]].concat();
    assert!(both(&again).contains(&"ramp up".to_string()));
}

#[test]
fn counts_of_two_are_added() {
    let mut facts = Facts::none();
    facts.count(&[POWER, CLOCK]);
    let mut twice = Facts::none();
    twice.add(&facts);
    twice.add(&facts);
    assert_eq!((twice.given[0][3][3], twice.given[1][3][7]), (4, 4));
    assert_eq!(twice.cases[0][0], 0);
}
