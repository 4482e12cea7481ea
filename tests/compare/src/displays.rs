//! The built program `panel` beside the second program: the first traces, and texts that have the ends of a reading and of a
//! count, every divisor, and each refusal before the next.

use crate::events::text_of;
use crate::told::Told;
use crate::traces::LONGEST_TEXT;
use snezhulka::Event;

/// What a text may be answered with.
const SHAPES: [&str; 15] = [
    "answer=11",
    "answer=10",
    "answer=1",
    "local=N",
    "local=-N",
    "remote1=N",
    "remote1=-N",
    "remote2=N",
    "remote2=-N",
    "fan1=none",
    "fan1=stalled",
    "fan1=N",
    "fan2=none",
    "fan2=stalled",
    "fan2=N",
];

const POWER: Event = [0, 44, 0, 0];
const CLOCK: Event = [7, 0, 0, 0];

/// Readings of local, remote 1 and remote 2 in eighths: the ends, zero, and both sides of it.
const READINGS: [[i32; 3]; 6] = [
    [-2, -1, 161],
    [-1024, -1024, -1023],
    [1022, 1023, 1022],
    [0, 8, -8],
    [2, -3, 1],
    [-4, 7, -7],
];

/// Counts: the ends, those that say something else, and two that leave a fraction.
const COUNTS: [i32; 6] = [0, 1, 7, 173, 254, 255];

/// The first traces and the texts of this program.
pub fn compare(path: &str, seed: u64) -> Result<(), String> {
    let told = Told {
        path,
        second: second::panel,
        shapes: &SHAPES,
    };
    told.compare(&[panels(), refusals()].concat(), seed)
}

fn write(register: i32, byte: i32) -> Event {
    [1, 44, register, byte]
}

/// Every count with every divisor, on fan 1 by a measurement and on fan 2, with another divisor, by a write.
fn panels() -> Vec<Vec<u8>> {
    let mut texts = Vec::new();
    for (count, readings) in COUNTS.into_iter().zip(READINGS) {
        for bits in 0..4 {
            let ranges = [
                write(0x20, bits << 6),
                write(0x21, ((bits ^ 1) << 6) | 0x3f),
            ];
            let samples = [0, 1, 2].map(|channel| [4, channel, 0, readings[channel as usize]]);
            let counts = [[5, 1, 0, count], write(0x09, count)];
            let start = [POWER, write(0x00, 0x91)];
            texts.push(text_of(&[&start[..], &samples, &counts, &ranges].concat()));
        }
    }
    texts
}

/// Texts without a panel: none; no power, a wrong line, too long, and those that are two or three of it.
fn refusals() -> Vec<Vec<u8>> {
    let (power, clock) = (text_of(&[POWER, CLOCK]), text_of(&[CLOCK]));
    let wrong = b"kind=clocks\n".to_vec();
    let most = LONGEST_TEXT / clock.len();
    let whole = [&power[..], &clock.repeat(most - 2)].concat();
    vec![
        Vec::new(),
        clock.clone(),
        text_of(&[[0, 47, 0, 0], CLOCK]),
        [&power[..], &wrong].concat(),
        [&wrong[..], &power].concat(),
        power[..power.len() - 1].to_vec(),
        clock[..clock.len() - 1].to_vec(),
        whole.clone(),
        [whole, clock.clone(), clock.clone()].concat(),
        clock.repeat(most + 1),
        vec![b'x'; LONGEST_TEXT],
        vec![b'x'; LONGEST_TEXT + 1],
    ]
}

#[cfg(test)]
mod tests {
    use super::{panels, refusals, LONGEST_TEXT};

    #[test]
    fn every_text_is_answered_as_it_says() {
        let panels: Vec<_> = panels().iter().map(|text| second::panel(text)).collect();
        let first = b"local=-3\nremote1=-2\nremote2=201\nfan1=none\nfan2=none\n";
        assert_eq!((panels.len(), &panels[0][..]), (24, &first[..]));
        assert!(panels.iter().all(|told| told.starts_with(b"local=")));
        let refusals = refusals();
        let told = refusals.iter().map(|text| second::panel(text));
        let answers: Vec<String> = told.map(|told| String::from_utf8(told).unwrap()).collect();
        let answered = [1, 1, 1, 10, 10, 10, 10, 0, 11, 11, 10, 11];
        for (told, number) in answers.iter().zip(answered) {
            let panel = number == 0 && told.starts_with("local=");
            assert!(panel || *told == format!("answer={number}\n"), "{told}");
        }
        assert!(refusals[7].len() <= LONGEST_TEXT && refusals[8].len() > LONGEST_TEXT);
    }
}
