//! The events of a trace text as numbers, and the report that the engine alone gives for them.

use second::keeper::Kind;
use snezhulka::{Event, Outcome};
use std::io::Write;

const KINDS: [&str; 11] = [
    "power", "write", "point", "read", "sample", "tach", "pin", "clock", "period", "alert", "diode",
];
const FIELDS: [&str; 7] = ["answer", "data", "int", "therm", "fault", "duty1", "duty2"];

/// The events of a text, if every line of it is right.
pub fn events_of(text: &[u8]) -> Option<Vec<Event>> {
    let text = std::str::from_utf8(text).ok()?;
    if text.len() > snezhulka::LONGEST_TEXT || !(text.is_empty() || text.ends_with('\n')) {
        return None;
    }
    let lines: Vec<&str> = text.split_terminator('\n').collect();
    lines.chunks(4).map(event_of).collect()
}

fn event_of(lines: &[&str]) -> Option<Event> {
    let [kind, who, arg, val] = lines else {
        return None;
    };
    let word = kind.strip_prefix("kind=")?;
    let place = KINDS.iter().position(|&kind| kind == word)?;
    Some([
        place as i32,
        number(who.strip_prefix("who=")?)?,
        number(arg.strip_prefix("arg=")?)?,
        number(val.strip_prefix("val=")?)?,
    ])
}

/// A decimal as the trace format has it: the only way to write its number.
fn number(word: &str) -> Option<i32> {
    let number: i32 = word.parse().ok()?;
    (number.to_string() == word).then_some(number)
}

/// The text of events that have a kind.
pub fn text_of(events: &[Event]) -> Vec<u8> {
    let mut text = Vec::new();
    for &[kind, who, arg, val] in events {
        let kind = KINDS[kind as usize];
        writeln!(text, "kind={kind}\nwho={who}\narg={arg}\nval={val}")
            .expect("a list of bytes takes every byte");
    }
    text
}

/// The report put together from the outcomes that the proved engine gives, if every line of the text is right.
pub fn report_of(text: &[u8]) -> Option<Vec<u8>> {
    events_of(text).as_deref().map(report_after)
}

/// The same for events.
pub fn report_after(events: &[Event]) -> Vec<u8> {
    let mut outcomes = vec![[0; 7]; events.len()];
    let taken = snezhulka::steps(events, &mut outcomes).expect("there is room for all");
    let mut report = Vec::with_capacity(68 * taken);
    for outcome in &outcomes[..taken] {
        put_outcome(&mut report, outcome);
    }
    report
}

fn put_outcome(report: &mut Vec<u8>, outcome: &Outcome) {
    for (field, byte) in FIELDS.iter().zip(outcome) {
        writeln!(report, "{field}={byte}").expect("a list of bytes takes every byte");
    }
}

/// An event as the second program takes it.
pub fn second_event(&[kind, who, arg, val]: &Event) -> second::keeper::Event {
    const KINDS: [Kind; 11] = [
        Kind::Power,
        Kind::Write,
        Kind::Point,
        Kind::Read,
        Kind::Sample,
        Kind::Tach,
        Kind::Pin,
        Kind::Clock,
        Kind::Period,
        Kind::Alert,
        Kind::Diode,
    ];
    second::keeper::Event {
        kind: KINDS[kind as usize],
        who,
        arg,
        val,
    }
}
