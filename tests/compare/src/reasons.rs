//! The reasons of both fans after each event of a trace, beside the second program's.

use crate::events::second_event;
use second::keeper::{Keeper, Reason};
use snezhulka::Event;

/// The bytes of an event's reasons, four for each fan.
const LENGTH: usize = 8;

/// Every so many traces the safe call is tried too, and calls of the wrong size.
const SOME: u64 = 16;

/// What the buffer holds before a call.
const MARKER: u8 = 0xaa;

/// How many bytes there are, and the buffer after the call.
type Given = (usize, Vec<u8>);

extern "C" {
    // The safe call hides bytes that are no number of a reason, and what becomes of the buffer beyond them.
    fn snezhulka_reasons(
        numbers: *const i32,
        count: usize,
        reasons: *mut u8,
        reasons_len: usize,
    ) -> usize;
}

fn proved(numbers: &[i32], length: usize) -> Given {
    let mut buffer = vec![MARKER; length];
    // Safety: both slices are alive, each goes with its own length, and they don't overlap.
    let end = unsafe {
        snezhulka_reasons(
            numbers.as_ptr(),
            numbers.len(),
            buffer.as_mut_ptr(),
            buffer.len(),
        )
    };
    (end, buffer)
}

/// The second program's, in a buffer with room for all.
fn second(events: &[Event], length: usize) -> Given {
    let mut buffer = vec![MARKER; length];
    let mut keeper = Keeper::new();
    for (event, bytes) in events.iter().zip(buffer.chunks_exact_mut(LENGTH)) {
        keeper.take(second_event(event));
        let fans = [1, 2].map(|fan| bytes_of(keeper.why(fan)));
        bytes.copy_from_slice(fans.as_flattened());
    }
    (LENGTH * events.len(), buffer)
}

/// The number of a reason and its values, as the library puts them.
fn bytes_of(why: Result<Reason, u8>) -> [u8; 4] {
    match why {
        Err(number) => [0, number, 0, 0],
        Ok(Reason::Disabled) => [1, 0, 0, 0],
        Ok(Reason::PinLow) => [2, 0, 0, 0],
        Ok(Reason::Latched(channel)) => [3, channel as u8, 0, 0],
        Ok(Reason::ZeroTarget) => [4, 0, 0, 0],
        Ok(Reason::SpinUp(clocks)) => [5, clocks, 0, 0],
        Ok(Reason::Ramp { to_go, target }) => {
            let (left, up) = (to_go.unsigned_abs() as u8, u8::from(to_go > 0));
            [6, left, up, target as u8]
        }
        Ok(Reason::Manual) => [7, 0, 0, 0],
        Ok(Reason::Demand(channel)) => [8, channel as u8, 0, 0],
    }
}

/// The same bytes of a reason that the safe call gives.
fn safe_bytes_of(why: snezhulka::Why) -> [u8; 4] {
    use snezhulka::Reason;
    match why {
        Err(number) => [0, number, 0, 0],
        Ok(Reason::Disabled) => [1, 0, 0, 0],
        Ok(Reason::PinLow) => [2, 0, 0, 0],
        Ok(Reason::Therm(channel)) => [3, channel, 0, 0],
        Ok(Reason::NoTarget) => [4, 0, 0, 0],
        Ok(Reason::SpinUp(clocks)) => [5, clocks, 0, 0],
        Ok(Reason::Ramp { left, up, target }) => [6, left, u8::from(up), target],
        Ok(Reason::Manual) => [7, 0, 0, 0],
        Ok(Reason::Demand(channel)) => [8, channel, 0, 0],
    }
}

/// What of the reasons differs, if any of it does. At some traces one more event follows that has no kind.
pub fn difference(events: &[Event], index: u64) -> Option<&'static str> {
    let mut taken = events.to_vec();
    if index.is_multiple_of(13) {
        taken.push([11 + index as i32 % 5, 0, 0, 0]);
    }
    let length = LENGTH * taken.len() + index as usize % 3;
    let expected = second(events, length);
    let some = index.is_multiple_of(SOME);
    if proved(taken.as_flattened(), length) != expected {
        Some("the reasons")
    } else if some && safe_differs(events, &expected) {
        Some("the reasons by the safe call")
    } else if some && !wrong_sizes_are_refused(events, index) {
        Some("the reasons with a wrong size")
    } else {
        None
    }
}

fn safe_differs(events: &[Event], (end, bytes): &Given) -> bool {
    let whys = snezhulka::reasons(events);
    let fans: Vec<[u8; 4]> = whys.into_iter().flatten().map(safe_bytes_of).collect();
    fans.as_flattened() != &bytes[..*end]
}

/// Numbers that are no whole events, and a buffer too short for all, are refused and leave the buffer.
fn wrong_sizes_are_refused(events: &[Event], index: u64) -> bool {
    let (numbers, index) = (events.as_flattened(), index as usize);
    let Some(whole) = numbers.len().checked_sub(1 + index / 16 % 3) else {
        return true;
    };
    let length = LENGTH * events.len();
    let short = length - 1 - index % length;
    let refused = |length| (usize::MAX, vec![MARKER; length]);
    proved(&numbers[..whole], length) == refused(length) && proved(numbers, short) == refused(short)
}

/// The reasons after the last event by both, in the library's bytes.
pub fn shown(events: &[Event]) -> String {
    let length = LENGTH * events.len();
    let last = |(_, bytes): Given| bytes[length.saturating_sub(LENGTH)..].to_vec();
    format!(
        "after its last event, fan 1 and fan 2:\nkeeper:\n  {:?}\nsecond program:\n  {:?}",
        last(proved(events.as_flattened(), length)),
        last(second(events, length)),
    )
}
