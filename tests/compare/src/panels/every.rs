//! Lists of events after which every count has been shown with every range on each fan, and every reading on each channel;
//! and one of more than 65,536 numbers.

use snezhulka::Event;

const START: [Event; 2] = [[0, 44, 0, 0], [1, 44, 0x00, 0x91]];
const CLOCK: Event = [7, 0, 0, 0];
const MANY: usize = 17_000;

/// The readings of a channel.
const READINGS: i32 = 2048;

pub fn lists() -> impl Iterator<Item = Vec<Event>> {
    let many = [&START[..], &vec![CLOCK; MANY], &shown(7)].concat();
    let each = (0..READINGS).map(|place| [&START[..], &shown(place)].concat());
    each.chain([many])
}

/// All that the panel shows, other of each at every place; the local channel takes even numbers only.
fn shown(place: i32) -> [Event; 7] {
    let (reading, count, range) = (place - 1024, place % 256, place / 256);
    [
        [4, 0, 0, reading & !1],
        [4, 1, 0, reading],
        [4, 2, 0, !reading],
        [5, 1, 0, count],
        [5, 2, 0, 255 - count],
        [1, 44, 0x20, range % 4 * 0x40],
        [1, 44, 0x21, (range + 1) % 4 * 0x40],
    ]
}

#[cfg(test)]
mod tests {
    use super::{lists, MANY};
    use std::collections::HashSet;

    #[test]
    fn nothing_is_left_out() {
        let mut seen: [HashSet<[i32; 2]>; 5] = Default::default();
        for list in lists().filter(|list| list.len() < MANY) {
            let [.., local, first, second, count1, count2, range1, range2] = list[..] else {
                panic!("a list is too short");
            };
            let fans = [[count1[3], range1[3]], [count2[3], range2[3]]];
            let readings = [local, first, second].map(|event| [event[3], 0]);
            for (seen, shown) in seen.iter_mut().zip(readings.into_iter().chain(fans)) {
                seen.insert(shown);
            }
        }
        assert_eq!(seen.map(|seen| seen.len()), [1024, 2048, 2048, 1024, 1024]);
    }
}
