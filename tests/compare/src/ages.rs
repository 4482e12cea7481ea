//! The stamp and the ages of both fans after each event of a trace, beside the second program's.

mod cases;
mod course;
mod fans;
mod lists;
mod rooms;

pub use cases::Ages;

use crate::events::second_event;
use rooms::{Call, NO_KINDS};
use second::keeper::Keeper;
use snezhulka::Event;

/// The numbers of an event: the stamp, the age of fan 1 and the age of fan 2.
const WIDTH: usize = 3;

/// Every so many traces the safe call is tried too.
const SOME: u64 = 16;

/// What the buffer holds before a call.
const MARKER: u16 = 0xaaaa;

/// How many numbers were put, and the buffer after the call.
type Given = (usize, Vec<u16>);

extern "C" {
    // The safe call hides what becomes of the buffer beyond what is put.
    fn snezhulka_ages(numbers: *const i32, count: usize, ages: *mut u16, ages_len: usize) -> usize;
}

fn proved(numbers: &[i32], length: usize) -> Given {
    let mut buffer = vec![MARKER; length];
    // Safety: both slices are alive, each goes with its own length, and they don't overlap.
    let end = unsafe {
        snezhulka_ages(
            numbers.as_ptr(),
            numbers.len(),
            buffer.as_mut_ptr(),
            buffer.len(),
        )
    };
    (end, buffer)
}

/// The second program's: refused where the numbers are no whole events or not all have room, else up to a kind that is none.
fn second(numbers: &[i32], length: usize) -> Given {
    let mut buffer = vec![MARKER; length];
    let (events, rest) = numbers.as_chunks::<4>();
    if !rest.is_empty() || buffer.len() / WIDTH < events.len() {
        return (usize::MAX, buffer);
    }
    let mut keeper = Keeper::new();
    let known = events.iter().take_while(|event| has_kind(event));
    let mut end = 0;
    for (event, told) in known.zip(buffer.chunks_exact_mut(WIDTH)) {
        keeper.take(second_event(event));
        told.copy_from_slice(&[keeper.stamp(), keeper.age(0), keeper.age(1)].map(in_16_bits));
        end += WIDTH;
    }
    (end, buffer)
}

/// A number as it stands in the buffer; one that has no place there leaves it.
fn in_16_bits(number: i32) -> u16 {
    u16::try_from(number).unwrap_or(MARKER)
}

fn has_kind(event: &Event) -> bool {
    (0..=10).contains(&event[0])
}

/// What the safe call gives, in the same order.
fn safe(events: &[Event]) -> Vec<u16> {
    let ages = snezhulka::ages(events).into_iter();
    let told = ages.map(|ages| [ages.stamp, ages.age[0], ages.age[1]]);
    told.collect::<Vec<_>>().into_flattened()
}

/// What of the ages differs, if any of it does. At some traces one more event follows that has no kind.
pub fn difference(events: &[Event], index: u64) -> Option<&'static str> {
    let mut taken = events.to_vec();
    if index.is_multiple_of(13) {
        let kind = NO_KINDS[index as usize % NO_KINDS.len()];
        taken.push([kind, 0, 0, 0]);
    }
    let length = WIDTH * taken.len() + index as usize % 4;
    let numbers = taken.as_flattened();
    let expected = second(numbers, length);
    if proved(numbers, length) != expected {
        Some("the ages")
    } else if index.is_multiple_of(SOME) && safe(&taken) != expected.1[..expected.0] {
        Some("the ages by the safe call")
    } else if rooms::calls(events, index).iter().any(differs) {
        Some("ages that are refused or end early")
    } else {
        None
    }
}

fn differs(call: &Call) -> bool {
    proved(&call.numbers, call.length) != second(&call.numbers, call.length)
}

/// Compares what no trace has: every room for a few events, and lists whose stamp wraps. Gives what those lists meet.
pub fn compare(seed: u64) -> Result<Ages, String> {
    if let Some(call) = rooms::few().iter().find(|call| differs(call)) {
        let (numbers, length) = (&call.numbers, call.length);
        return Err(format!(
            "a room for {length} ages differs\nwith {numbers:?}"
        ));
    }
    let mut ages = Ages::none();
    for (place, events) in lists::lists(seed).iter().enumerate() {
        compare_list(events).map_err(|words| {
            format!("the ages: seed {seed}, long list {place} differs\n{words}")
        })?;
        ages.count_list(events);
    }
    Ok(ages)
}

fn compare_list(events: &[Event]) -> Result<(), String> {
    let (numbers, length) = (events.as_flattened(), WIDTH * events.len());
    let (ours, theirs) = (proved(numbers, length), second(numbers, length));
    if ours != theirs {
        let mut both = ours.1.iter().zip(&theirs.1);
        let place = both.position(|(ours, theirs)| ours != theirs);
        let end = place.map_or(events.len(), |place| place / WIDTH + 1);
        return Err(shown(&events[..end]));
    }
    if safe(events) != theirs.1 {
        return Err("by the safe call".to_string());
    }
    Ok(())
}

/// Both after the last event: the stamp, and the ages of fan 1 and fan 2.
pub fn shown(events: &[Event]) -> String {
    let length = WIDTH * events.len();
    let last = |(_, told): Given| told[length.saturating_sub(WIDTH)..].to_vec();
    format!(
        "after event {}, stamp and ages:\nkeeper:\n  {:?}\nsecond program:\n  {:?}",
        events.len(),
        last(proved(events.as_flattened(), length)),
        last(second(events.as_flattened(), length)),
    )
}

#[cfg(test)]
mod tests;
