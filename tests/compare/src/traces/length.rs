//! Traces of about the longest length that is taken, some a little shorter and some longer.

use super::{guided::guided, unguided, LONGEST_TEXT};
use crate::random::Random;

const CLOCK: &[u8] = b"kind=clock\nwho=0\narg=0\nval=0\n";

// The bytes of a tach event without its three numbers, and the most that those can have.
const TACH_FRAME: usize = 25;
const LONGEST_TACH: usize = TACH_FRAME + 33;

/// From 6 bytes less to 4 bytes more than the longest text.
pub fn near_the_longest(random: &mut Random) -> Vec<u8> {
    let length = LONGEST_TEXT - 6 + random.below(11);
    let mut text = match random.percent(70) {
        true => guided(random, 600),
        false => unguided(random, 300),
    };
    // Room for at least one padding event.
    while text.len() + LONGEST_TACH > length {
        drop_last_event(&mut text);
    }
    match random.below(4) {
        0 => pad_with_junk(random, &mut text, length),
        1 => {
            pad_with_events(random, &mut text, length - 100);
            pad_with_junk(random, &mut text, length);
        }
        _ => pad_with_events(random, &mut text, length),
    }
    text
}

fn drop_last_event(text: &mut Vec<u8>) {
    for _ in 0..4 {
        text.pop();
        let line = text
            .iter()
            .rposition(|&byte| byte == b'\n')
            .map_or(0, |newline| newline + 1);
        text.truncate(line);
    }
}

/// Clock events, and a last event that ends at `length` exactly.
fn pad_with_events(random: &mut Random, text: &mut Vec<u8>, length: usize) {
    while text.len() + LONGEST_TACH < length {
        text.extend_from_slice(CLOCK);
    }
    let mut digits = length.saturating_sub(text.len() + TACH_FRAME);
    text.extend_from_slice(b"kind=tach\n");
    for (name, still) in [("who=", 2), ("arg=", 1), ("val=", 0)] {
        // Each number has 1 to 11 bytes, and the numbers still to come have room too.
        let least = digits.saturating_sub(11 * still).max(1);
        let most = digits.saturating_sub(still).clamp(1, 11);
        let own = random.between(least.min(most) as i32, most as i32) as usize;
        digits = digits.saturating_sub(own);
        text.extend_from_slice(name.as_bytes());
        text.extend_from_slice(&number_of_length(own));
        text.push(b'\n');
    }
}

/// A decimal of 1 to 11 bytes that fits a signed 32-bit number.
fn number_of_length(length: usize) -> Vec<u8> {
    let mut number = vec![b'1'; length];
    if length == 11 {
        number[0] = b'-';
    }
    number
}

fn pad_with_junk(random: &mut Random, text: &mut Vec<u8>, length: usize) {
    let filler = random.pick(&[b'\n', b' ', 0, b'k']);
    let mixed = random.percent(50);
    while text.len() < length {
        text.push(if mixed {
            random.below(256) as u8
        } else {
            filler
        });
    }
}

#[cfg(test)]
mod tests {
    use super::{near_the_longest, pad_with_events, LONGEST_TEXT};
    use crate::random::Random;

    #[test]
    fn every_length_around_the_longest_comes() {
        let mut seen = [false; 11];
        for index in 0..200 {
            let length = near_the_longest(&mut Random::new(1, index)).len();
            seen[length - (LONGEST_TEXT - 6)] = true;
        }
        assert_eq!(seen, [true; 11]);
    }

    #[test]
    fn padding_is_valid_and_ends_at_the_length() {
        for length in 58..200 {
            let mut text = Vec::new();
            pad_with_events(&mut Random::new(1, length as u64), &mut text, length);
            assert_eq!(text.len(), length);
            let report = snezhulka::report_of(&text);
            assert!(
                !report.windows(9).any(|part| part == b"answer=10"),
                "length {length}"
            );
        }
    }
}
