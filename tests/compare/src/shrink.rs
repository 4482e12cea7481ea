//! Cuts a trace down to the shortest that still differs, and shows where two reports differ.

/// The most events of a trace that are printed.
const MOST_SHOWN: usize = 200;

/// The parts of `text` of so many lines each; the last may have fewer.
pub fn parts(text: &[u8], lines: usize) -> Vec<&[u8]> {
    let mut parts = Vec::new();
    let (mut start, mut seen) = (0, 0);
    for (place, &byte) in text.iter().enumerate() {
        seen += usize::from(byte == b'\n');
        if byte == b'\n' && seen % lines == 0 {
            parts.push(&text[start..=place]);
            start = place + 1;
        }
    }
    if start < text.len() {
        parts.push(&text[start..]);
    }
    parts
}

/// Leaves out chunks of events, then single events, as long as `differs` holds of the rest.
pub fn shortest(text: &[u8], differs: &dyn Fn(&[u8]) -> bool) -> Vec<u8> {
    let mut events = parts(text, 4);
    let mut size = events.len().div_ceil(2).max(1);
    loop {
        let shorter = without_chunks(&events, size, differs);
        let same = shorter.len() == events.len();
        events = shorter;
        if size > 1 {
            size = size.div_ceil(2);
        } else if same {
            return events.concat();
        }
    }
}

/// One pass from the end to the start that leaves out each chunk that is not needed.
fn without_chunks<'a>(
    events: &[&'a [u8]],
    size: usize,
    differs: &dyn Fn(&[u8]) -> bool,
) -> Vec<&'a [u8]> {
    let mut kept = events.to_vec();
    let mut end = kept.len();
    while end > 0 {
        let start = end.saturating_sub(size);
        let mut rest = kept.clone();
        rest.drain(start..end);
        if differs(&rest.concat()) {
            kept = rest;
        }
        end = start;
    }
    kept
}

/// The first event whose part of the two reports differs: its number, its lines, and both parts.
pub fn first_difference(text: &[u8], ours: &[u8], theirs: &[u8]) -> String {
    let (events, ours, theirs) = (parts(text, 4), parts(ours, 7), parts(theirs, 7));
    let mut place = 0;
    while place < ours.len() && ours.get(place) == theirs.get(place) {
        place += 1;
    }
    format!(
        "first difference at event {}:\n{}keeper:\n{}second program:\n{}",
        place + 1,
        shown(events.get(place)),
        shown(ours.get(place)),
        shown(theirs.get(place)),
    )
}

/// A part as text, with bytes that cannot be printed escaped; it ends with a newline.
fn shown(part: Option<&&[u8]>) -> String {
    let Some(part) = part else {
        return "  (nothing)\n".to_string();
    };
    let mut text = String::new();
    for line in part.split_inclusive(|&byte| byte == b'\n') {
        let whole = line.strip_suffix(b"\n");
        let note = if whole.is_some() {
            ""
        } else {
            "  (no newline)"
        };
        text += &format!("  {}{note}\n", whole.unwrap_or(line).escape_ascii());
    }
    text
}

/// A trace as text, without the middle of a very long one.
pub fn shown_trace(text: &[u8]) -> String {
    let events = parts(text, 4);
    if events.len() <= MOST_SHOWN {
        return shown(Some(&text));
    }
    let (first, last) = (
        events[..MOST_SHOWN / 2].concat(),
        events[events.len() - MOST_SHOWN / 2..].concat(),
    );
    let left_out = events.len() - MOST_SHOWN / 2 * 2;
    format!(
        "{}  ({left_out} events not shown, {} bytes in all)\n{}",
        shown(Some(&&first[..])),
        text.len(),
        shown(Some(&&last[..])),
    )
}

#[cfg(test)]
mod tests {
    use super::{first_difference, parts, shortest};

    #[test]
    fn parts_join_to_the_whole() {
        let text = b"a\nb\nc\nd\ne\nf";
        assert_eq!(parts(text, 4), [&b"a\nb\nc\nd\n"[..], b"e\nf"]);
        assert_eq!(parts(text, 1).concat(), text);
        assert!(parts(b"", 4).is_empty());
    }

    #[test]
    fn only_the_needed_events_stay() {
        let text: Vec<u8> = (0..100)
            .flat_map(|i| format!("{i}\n\n\n\n").into_bytes())
            .collect();
        let holds =
            |text: &[u8], line: &[u8]| text.split(|&byte| byte == b'\n').any(|part| part == line);
        let short = shortest(&text, &|rest| holds(rest, b"7") && holds(rest, b"93"));
        assert_eq!(short, b"7\n\n\n\n93\n\n\n\n");
    }

    #[test]
    fn the_first_different_event_is_named() {
        let report = b"1\n2\n3\n4\n5\n6\n7\n";
        let text = first_difference(
            b"a\nb\nc\nd\ne\nf\ng\nh\n",
            &[&report[..], b"x\n"].concat(),
            report,
        );
        assert!(
            text.starts_with("first difference at event 2:\n  e\n  f\n  g\n  h\nkeeper:\n  x\n"),
            "{text}"
        );
        assert!(text.ends_with("second program:\n  (nothing)\n"), "{text}");
    }
}
