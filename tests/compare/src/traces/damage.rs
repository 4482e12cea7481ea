//! Traces whose text is damaged.

use super::{guided::guided, unguided};
use crate::random::Random;

/// Decimals that do not fit a signed 32-bit number; some would look right if cut to 32 or 64 bits.
const TOO_FAR: [&str; 9] = [
    "2147483648",
    "-2147483649",
    "4294967296",
    "4294967340",
    "-4294967252",
    "99999999999",
    "9223372036854775808",
    "18446744073709551660",
    "340282366920938463463374607431768211500",
];

const FOREIGN: [&[u8]; 10] = [
    b"val=00\n",
    b"kind=power\n",
    b"kind=diodes\n",
    b"\n",
    b"val=-0\n",
    b"who=2147483648\n",
    b"arg=+1\n",
    b"duty1=0\n",
    b"KIND=clock\n",
    b"who=\n",
];

/// A short trace with one or two kinds of damage.
pub fn damaged(random: &mut Random) -> Vec<u8> {
    let mut text = match random.percent(70) {
        true => guided(random, 80),
        false => unguided(random, 10),
    };
    for _ in 0..random.pick(&[1, 1, 2]) {
        damage(random, &mut text);
    }
    text
}

fn damage(random: &mut Random, text: &mut Vec<u8>) {
    if text.is_empty() {
        text.extend_from_slice(random.pick(&FOREIGN));
        return;
    }
    let place = random.below(text.len());
    match random.below(11) {
        0 => text[place] = random.below(256) as u8,
        1 => drop(text.remove(place)),
        2 => text.insert(place, random.pick(b"0-+ \t\n\r9=k\0")),
        3 => text.truncate(place),
        4 => insert(text, line_start(text, place), random.pick(&FOREIGN)),
        5 => insert(text, number_start(text, place), random.pick(&[b"0", b"00"])),
        6 => insert(text, number_start(text, place), b"+"),
        7 => replace_number(text, place, "-0"),
        8 => replace_number(text, place, random.pick(&TOO_FAR)),
        9 => insert(text, line_end(text, place), b"\r"),
        _ => missing_newline(random, text, place),
    }
}

fn insert(text: &mut Vec<u8>, place: usize, bytes: &[u8]) {
    text.splice(place..place, bytes.iter().copied());
}

/// Where the line with this place starts.
fn line_start(text: &[u8], place: usize) -> usize {
    text[..place]
        .iter()
        .rposition(|&byte| byte == b'\n')
        .map_or(0, |newline| newline + 1)
}

/// Where the line with this place ends, before its newline.
fn line_end(text: &[u8], place: usize) -> usize {
    text[place..]
        .iter()
        .position(|&byte| byte == b'\n')
        .map_or(text.len(), |length| place + length)
}

/// Just after the equals sign of the line with this place, or its end where it has none.
fn number_start(text: &[u8], place: usize) -> usize {
    let (start, end) = (line_start(text, place), line_end(text, place));
    text[start..end]
        .iter()
        .position(|&byte| byte == b'=')
        .map_or(end, |equals| start + equals + 1)
}

fn replace_number(text: &mut Vec<u8>, place: usize, number: &str) {
    let (start, end) = (number_start(text, place), line_end(text, place));
    text.splice(start..end, number.bytes());
}

/// Takes a newline away, every other time the last one.
fn missing_newline(random: &mut Random, text: &mut Vec<u8>, place: usize) {
    let newline = match random.percent(50) {
        true => text.len() - 1,
        false => line_end(text, place),
    };
    if newline < text.len() {
        text.remove(newline);
    }
}
