//! Where the panel of a trace is asked for, and events that come first there, so that counts, ranges and readings of every
//! kind meet.

use crate::random::Random;
use snezhulka::Event;

/// Beside one at any place, so many panels of a trace are asked for among the first events, where that costs little.
const EARLY: usize = 8;
pub const FIRST: usize = 120;

/// Every so many traces one is asked for after all events, and every so many after each of the first.
pub const WHOLE: u64 = 4;
pub const EACH: u64 = 32;

/// A panel after so many events of a trace, and these.
pub struct Asked {
    pub count: usize,
    pub more: Vec<Event>,
}

/// The panels of a trace that are asked for, in the order of its events; every other one after events of its own.
pub fn asked(events: &[Event], index: u64) -> Vec<Asked> {
    let mut random = Random::new(6, index);
    let mut counts = counts(&mut random, events.len(), index);
    counts.sort_unstable();
    counts.dedup();
    let with_more = |count| Asked {
        count,
        more: match random.percent(50) {
            true => more(&mut random, address(&events[..count])),
            false => Vec::new(),
        },
    };
    counts.into_iter().map(with_more).collect()
}

fn counts(random: &mut Random, events: usize, index: u64) -> Vec<usize> {
    let mut counts = vec![random.below(events + 1)];
    if index.is_multiple_of(WHOLE) {
        counts.push(events);
    }
    let first = events.min(FIRST);
    if index.is_multiple_of(EACH) {
        counts.extend(0..=first);
    } else {
        counts.extend((0..EARLY).map(|_| random.below(first + 1)));
    }
    counts
}

/// The address that the last accepted power has given.
fn address(events: &[Event]) -> i32 {
    let last = events.iter().rfind(|event| is_power(&event[..]));
    last.map_or(44, |power| power[1])
}

/// Whether these are the numbers of a power that is accepted.
pub fn is_power(event: &[i32]) -> bool {
    let bit = |number: i32| number == 0 || number == 1;
    event[0] == 0 && (44..=46).contains(&event[1]) && bit(event[2]) && bit(event[3])
}

/// A few events that show on the panel: a range, a count by a write or a measurement, a reading.
fn more(random: &mut Random, address: i32) -> Vec<Event> {
    let times = random.between(1, 3);
    let one = |_| {
        let (fan, byte) = (random.between(1, 2), random.between(0, 255));
        let count = random.pick(&[0, 1, 254, 255, byte, byte]);
        let (channel, eighths) = (random.between(0, 2), random.between(-1024, 1023));
        let sample = random.pick(&[-1, -2, 161, eighths, eighths]);
        random.pick(&[
            [1, address, 0x1f + fan, byte],
            [1, address, 0x07 + fan, count],
            [5, fan, 0, count],
            [4, channel, 0, sample],
        ])
    };
    (0..times).map(one).collect()
}
