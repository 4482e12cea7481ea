//! Calls with room for all ages of some events, for fewer or for more; with numbers that are no whole events, and with a kind
//! that is none.

use super::WIDTH;
use crate::random::Random;
use snezhulka::Event;

/// The most events of a trace's calls but at every 16th trace, so that they cost little.
const FEW: usize = 40;
const SOME: u64 = 16;

/// Kinds that are none; some would be a clock or a power if cut to 8 or 16 bits.
pub const NO_KINDS: [i32; 9] = [11, -1, 255, 256, 263, 65_536, 65_543, i32::MIN, i32::MAX];

/// After each of these but the first the stamp or an age is another.
const EVENTS: [Event; 6] = [
    [0, 44, 0, 0],
    [7, 0, 0, 0],
    [6, 0, 0, 0],
    [7, 0, 0, 0],
    [1, 44, 0x01, 0x80],
    [7, 0, 0, 0],
];

/// The numbers of a call, and how many its buffer holds.
pub struct Call {
    pub numbers: Vec<i32>,
    pub length: usize,
}

impl Call {
    /// How many whole events there are.
    pub fn events(&self) -> usize {
        self.numbers.len() / 4
    }

    pub fn is_whole(&self) -> bool {
        self.numbers.len().is_multiple_of(4)
    }

    pub fn ends_early(&self) -> bool {
        self.numbers
            .chunks_exact(4)
            .any(|event| NO_KINDS.contains(&event[0]))
    }
}

/// Those that go with a trace: some events of it, and these with one of no kind among them; whole or not; with room or not.
pub fn calls(events: &[Event], index: u64) -> [Call; 6] {
    let mut random = Random::new(8, index);
    let most = match index.is_multiple_of(SOME) {
        true => events.len(),
        false => random.below(events.len().min(FEW) + 1),
    };
    let right = events[..most].as_flattened();
    let odd = with_no_kind(
        &events[..most],
        random.below(most + 1),
        random.pick(&NO_KINDS),
    );
    let cut = |numbers: &[i32]| [numbers, &[7, 0, 0][..1 + index as usize % 3]].concat();
    let room = |numbers: &[i32]| numbers.len() / 4 * WIDTH;
    let more = random.below(2 * WIDTH);
    let shorter = random.below(room(&odd));
    [
        call(right, room(right) + more),
        call(&cut(right), room(right) + more),
        call(&odd, room(&odd) + more),
        call(&odd, room(&odd) - 1),
        call(&odd, shorter),
        call(&cut(&odd), room(&odd)),
    ]
}

/// Every room for the first events, none up to all, and a little more: whole, with 1 to 3 numbers beyond, and with a kind that
/// is none at each place.
pub fn few() -> Vec<Call> {
    let mut calls = Vec::new();
    for count in 0..=EVENTS.len() {
        let mut lists = vec![EVENTS[..count].as_flattened().to_vec()];
        for (place, kind) in (0..count).zip(NO_KINDS) {
            lists.push(with_no_kind(&EVENTS[..count - 1], place, kind));
        }
        for numbers in lists {
            for beyond in 0..4 {
                let numbers = [&numbers[..], &[7, 0, 0][..beyond]].concat();
                let rooms = 0..=WIDTH * count + 4;
                calls.extend(rooms.map(|length| call(&numbers, length)));
            }
        }
    }
    calls
}

fn call(numbers: &[i32], length: usize) -> Call {
    Call {
        numbers: numbers.to_vec(),
        length,
    }
}

fn with_no_kind(events: &[Event], place: usize, kind: i32) -> Vec<i32> {
    let mut events = events.to_vec();
    events.insert(place, [kind, 0, 0, 0]);
    events.into_flattened()
}
