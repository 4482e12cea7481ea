//! The register image after the first events of a trace, and a trace written again, beside the second program's.

use crate::events::second_event;
use second::keeper::Keeper;
use snezhulka::{Event, IMAGE_LENGTH};

/// The most events before most images, and the longest text that most copies are made of: so that a trace costs little.
const MOST_EVENTS: usize = 100;
const MOST_TEXT: usize = 2_000;

/// Every so many traces are taken whole.
const WHOLE: usize = 16;

/// The reply numbers of an image.
pub const NUMBERS: [u8; 4] = [0, 1, 10, 11];

/// An image's reply number, and the buffer after it.
pub type Image = (u8, Vec<u8>);

/// How many events an image is taken after, and how long its buffer is: a little more than an image, or less.
fn image_case(events: usize, index: u64) -> (usize, usize) {
    let index = index as usize;
    let count = if index.is_multiple_of(WHOLE) {
        events
    } else {
        index % (events.min(MOST_EVENTS) + 1)
    };
    let length = if index.is_multiple_of(11) {
        index % IMAGE_LENGTH
    } else {
        IMAGE_LENGTH + index % 3
    };
    (count, length)
}

/// The proved image; at some traces one more event follows that has no kind.
pub fn proved_image(events: &[Event], index: u64) -> Image {
    let (count, length) = image_case(events.len(), index);
    let mut taken = events[..count].to_vec();
    if index.is_multiple_of(13) {
        taken.push([11 + index as i32 % 5, 0, 0, 0]);
    }
    let mut buffer = vec![0xaa; length];
    (snezhulka::image(&taken, &mut buffer), buffer)
}

/// The second program's.
pub fn second_image(events: &[Event], index: u64) -> Image {
    let (count, length) = image_case(events.len(), index);
    let mut buffer = vec![0xaa; length];
    if index.is_multiple_of(13) {
        return (10, buffer);
    }
    let mut keeper = Keeper::new();
    for event in &events[..count] {
        keeper.take(second_event(event));
    }
    (keeper.image(&mut buffer), buffer)
}

/// The part of a text that is copied, or searched for a wrong line.
pub fn some_text(text: &[u8], index: u64) -> &[u8] {
    if index.is_multiple_of(WHOLE as u64) {
        text
    } else {
        &text[..text.len().min(MOST_TEXT)]
    }
}

/// That part, and the length of the buffer: most often with room for all of it.
fn copy_case(text: &[u8], index: u64) -> (&[u8], usize) {
    let part = some_text(text, index);
    let index = index as usize;
    let less = if index.is_multiple_of(3) {
        index % 200
    } else {
        0
    };
    (part, part.len().saturating_sub(less))
}

/// The proved copy: how many bytes, and the buffer after it.
pub fn proved_copy(text: &[u8], index: u64) -> (usize, Vec<u8>) {
    let (part, room) = copy_case(text, index);
    let mut buffer = vec![0xaa; room];
    (snezhulka::rewrite(part, &mut buffer), buffer)
}

/// The second program's: an event has one text only, so what is written again is what was read.
pub fn second_copy(text: &[u8], index: u64) -> (usize, Vec<u8>) {
    let (part, room) = copy_case(text, index);
    let end = second::text::whole_events(part, room);
    let mut buffer = vec![0xaa; room];
    buffer[..end].copy_from_slice(&part[..end]);
    (end, buffer)
}
