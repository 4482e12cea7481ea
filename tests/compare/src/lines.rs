//! The first wrong line of a trace, beside the second program's.

use crate::images::some_text;

/// What a search may end with.
pub const ENDS: [&str; 3] = [
    "no wrong line, or an empty one",
    "a wrong line",
    "a wrong line that does not fit",
];

/// The most bytes that a wrong line has room for, and one more.
const ROOM: u64 = 24;

/// How long the wrong line is, nothing where it does not fit; and the buffer after it.
pub type Line = (Option<usize>, Vec<u8>);

/// Which of the ends a search came to.
pub fn end_of(line: &Line) -> usize {
    match line.0 {
        Some(0) => 0,
        Some(_) => 1,
        None => 2,
    }
}

fn buffer(index: u64) -> Vec<u8> {
    vec![0xaa; (index % ROOM) as usize]
}

/// The proved search.
pub fn proved_line(text: &[u8], index: u64) -> Line {
    let mut buffer = buffer(index);
    let end = snezhulka::wrong_line(some_text(text, index), &mut buffer);
    (end.ok(), buffer)
}

/// The second program's.
pub fn second_line(text: &[u8], index: u64) -> Line {
    let line = second::text::wrong_line(some_text(text, index));
    let mut buffer = buffer(index);
    let Some(room) = buffer.get_mut(..line.len()) else {
        return (None, buffer);
    };
    room.copy_from_slice(line);
    (Some(line.len()), buffer)
}
