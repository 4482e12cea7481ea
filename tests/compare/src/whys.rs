//! The built program `why` beside the second program: the first traces, and texts with ages of their own.

use crate::events::text_of;
use crate::told::Told;
use snezhulka::Event;

/// What a text may be answered with.
const SHAPES: [&str; 23] = [
    "answer=11",
    "answer=10",
    "answer=1",
    "reason1=disabled",
    "reason1=pin",
    "reason1=therm N",
    "reason1=zero",
    "reason1=spin N",
    "reason1=ramp N up N",
    "reason1=ramp N down N",
    "reason1=manual",
    "reason1=demand N",
    "reason2=disabled",
    "reason2=pin",
    "reason2=therm N",
    "reason2=zero",
    "reason2=spin N",
    "reason2=ramp N up N",
    "reason2=ramp N down N",
    "reason2=manual",
    "reason2=demand N",
    "age1=N",
    "age2=N",
];

const CLOCK: Event = [7, 0, 0, 0];

/// The first traces, the empty text, and the texts of this program.
pub fn compare(path: &str, seed: u64) -> Result<(), String> {
    let told = Told {
        path,
        second: second::why,
        shapes: &SHAPES,
    };
    told.compare(&[vec![Vec::new()], ages()].concat(), seed)
}

/// Fan 1 runs by hand since stamp 7, fan 2 since 2,007: up to each event after that, a stop, a reset and a power too.
fn ages() -> Vec<Vec<u8>> {
    let write = |register, byte| [1, 44, register, byte];
    let first = [[0, 44, 0, 0], write(0x01, 0x7d)];
    let mut events = [&first[..], &[CLOCK; 7], &[write(0x00, 0x11)]].concat();
    events.extend([CLOCK; 2_000]);
    let running = events.len();
    events.extend([write(0x01, 0x7f), CLOCK, [7, 0, 0, 1], CLOCK]);
    events.extend([write(0x01, 0x7e), CLOCK, write(0x01, 0x80), CLOCK]);
    events.extend([[0, 44, 0, 1], CLOCK, [0, 47, 0, 0]]);
    let up_to = |end| text_of(&events[..end]);
    let mut texts: Vec<_> = (running..=events.len()).map(up_to).collect();
    texts.push(text_of(&[CLOCK; 3]));
    texts
}

#[cfg(test)]
mod tests {
    use super::ages;

    #[test]
    fn every_text_is_answered_as_it_says() {
        let told = ages().into_iter().map(|text| second::why(&text));
        let ages: Vec<[u32; 2]> = told.map(|told| numbers(&told)).collect();
        let running = [[2000, 2007], [2000, 0], [2001, 1], [2001, 1], [2002, 2]];
        let stopped = [[2002, 2], [2003, 3], [0, 0], [1, 1]];
        let powered = [[0, 0], [1, 1], [1, 1]];
        let all = [&running[..], &stopped, &powered].concat();
        assert_eq!(ages[..12], all);
        assert_eq!(ages[12..], [[u32::MAX; 2]]);
    }

    // The ages of an answer, or the largest numbers where it has none.
    fn numbers(told: &[u8]) -> [u32; 2] {
        let told = std::str::from_utf8(told).unwrap();
        ["age1=", "age2="].map(|name| {
            let mut lines = told.lines();
            let age = lines.find_map(|line| line.strip_prefix(name));
            age.map_or(u32::MAX, |age| age.parse().unwrap())
        })
    }
}
