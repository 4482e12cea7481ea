//! Panels that are refused: numbers that are no whole events, buffers too short, a kind that is none, and two of these at
//! once; also before power.

use super::{proved, refused, Room, ENOUGH};
use crate::random::Random;
use snezhulka::Event;

/// The most events of such a call but at every 16th trace, so that it costs little.
const FEW: usize = 40;
const SOME: u64 = 16;

/// The lengths that are tried in a short pair, from 0.
const FIGURES: usize = 7;
const CASES: usize = 4;

/// Kinds that are none; some would be one if cut to 8 or 16 bits.
const NO_KINDS: [i32; 8] = [11, -1, 255, 256, 260, 65_536, i32::MIN, i32::MAX];

/// A call that is refused with this number.
pub struct Call {
    pub numbers: Vec<i32>,
    pub room: Room,
    pub number: usize,
}

/// The rooms that are too short for figures, for cases, or for both.
pub fn short_rooms() -> Vec<Room> {
    let rooms = (0..FIGURES).flat_map(|figures| (0..CASES).map(move |cases| (figures, cases)));
    rooms.filter(|room| !ENOUGH.contains(room)).collect()
}

/// Whether each call is refused as it must be.
pub fn alike(events: &[Event], index: u64) -> bool {
    let alike = |call: &Call| proved(&call.numbers, call.room) == refused(call.number, call.room);
    calls(events, index).iter().all(alike)
}

/// The calls that go with a trace: a short room, half an event, a kind that is none, and the first two with such a kind.
pub fn calls(events: &[Event], index: u64) -> [Call; 5] {
    let mut random = Random::new(7, index);
    let rooms = short_rooms();
    let (short, enough) = (rooms[index as usize % rooms.len()], random.pick(&ENOUGH));
    let most = match index.is_multiple_of(SOME) {
        true => events.len(),
        false => random.below(events.len().min(FEW) + 1),
    };
    let mut odd = events[..most].to_vec();
    let place = random.below(most + 1);
    odd.insert(place, [random.pick(&NO_KINDS), 0, 0, 0]);
    let (right, odd) = (events[..most].as_flattened(), odd.as_flattened());
    let cut = |numbers: &[i32]| [numbers, &[0, 44, 0][..1 + index as usize % 3]].concat();
    let call = |numbers: Vec<i32>, room, number| Call {
        numbers,
        room,
        number,
    };
    [
        call(right.to_vec(), short, 11),
        call(cut(right), enough, 11),
        call(odd.to_vec(), enough, 10),
        call(odd.to_vec(), short, 11),
        call(cut(odd), enough, 11),
    ]
}
