//! The trace reader and the report.

use crate::keeper::{Event, Keeper, Kind, Reply};

/// The longest text that is judged.
pub const LONGEST: usize = 65_536;

/// The whole report of a trace.
pub fn replay(text: &[u8]) -> Vec<u8> {
    let mut report = Vec::new();
    if text.len() > LONGEST {
        put(&mut report, "answer", 11);
        return report;
    }
    let mut keeper = Keeper::new();
    let mut reader = Reader::new(text);
    while reader.place < text.len() {
        match reader.event() {
            Some(e) => put_reply(&mut report, keeper.take(e)),
            None => {
                put(&mut report, "answer", 10);
                put(&mut report, "line", reader.line);
                break;
            }
        }
    }
    report
}

/// Every event of a text, if no line of it is wrong or missing.
pub fn events(text: &[u8]) -> Option<Vec<Event>> {
    let mut reader = Reader::new(text);
    let mut events = Vec::new();
    while reader.place < text.len() {
        events.push(reader.event()?);
    }
    Some(events)
}

/// Where the last event ends that is well-formed, as those before it, and lies within the first `room` bytes.
pub fn whole_events(text: &[u8], room: usize) -> usize {
    let mut reader = Reader::new(text);
    let mut end = 0;
    while reader.event().is_some() && reader.place <= room {
        end = reader.place;
    }
    end
}

/// The first wrong line, without its newline: the one whose number the report ends with; empty where none is wrong.
pub fn wrong_line(text: &[u8]) -> &[u8] {
    let mut reader = Reader::new(text);
    while reader.place < text.len() && reader.event().is_some() {}
    let mut lines = text.split(|&c| c == b'\n');
    lines.nth(reader.line as usize - 1).unwrap_or_default()
}

/// The text, the place of the next line, and the number of that line from 1.
struct Reader<'a> {
    text: &'a [u8],
    place: usize,
    line: i32,
}

impl<'a> Reader<'a> {
    fn new(text: &'a [u8]) -> Self {
        Reader {
            text,
            place: 0,
            line: 1,
        }
    }

    // four lines an event, in this order; at None `line` is the wrong one
    fn event(&mut self) -> Option<Event> {
        let kind = self.field(b"kind=", kind)?;
        let who = self.field(b"who=", decimal)?;
        let arg = self.field(b"arg=", decimal)?;
        let val = self.field(b"val=", decimal)?;
        Some(Event {
            kind,
            who,
            arg,
            val,
        })
    }

    // one line; a wrong, unended or missing one is not passed
    fn field<T>(&mut self, name: &[u8], value: fn(&[u8]) -> Option<T>) -> Option<T> {
        let rest = &self.text[self.place..];
        let end = rest.iter().position(|&c| c == b'\n')?;
        let found = value(rest[..end].strip_prefix(name)?)?;
        self.place += end + 1;
        self.line += 1;
        Some(found)
    }
}

// "kinds as above"; T-02 and T-05 add one each
fn kind(word: &[u8]) -> Option<Kind> {
    match word {
        b"power" => Some(Kind::Power),
        b"write" => Some(Kind::Write),
        b"point" => Some(Kind::Point),
        b"read" => Some(Kind::Read),
        b"sample" => Some(Kind::Sample),
        b"tach" => Some(Kind::Tach),
        b"pin" => Some(Kind::Pin),
        b"clock" => Some(Kind::Clock),
        b"period" => Some(Kind::Period),
        b"alert" => Some(Kind::Alert),
        b"diode" => Some(Kind::Diode),
        _ => None,
    }
}

// fits a signed 32-bit number, without plus, leading zero or -0
fn decimal(word: &[u8]) -> Option<i32> {
    let negative = word.first() == Some(&b'-');
    let digits = if negative { &word[1..] } else { word };
    if digits.is_empty() || digits.len() > 10 || !digits.iter().all(u8::is_ascii_digit) {
        return None;
    }
    if digits[0] == b'0' && (digits.len() > 1 || negative) {
        return None;
    }
    let size = digits
        .iter()
        .fold(0i64, |n, &c| 10 * n + i64::from(c - b'0'));
    i32::try_from(if negative { -size } else { size }).ok()
}

fn put_reply(report: &mut Vec<u8>, reply: Reply) {
    put(report, "answer", i32::from(reply.answer));
    put(report, "data", i32::from(reply.data));
    put(report, "int", i32::from(reply.int));
    put(report, "therm", i32::from(reply.therm));
    put(report, "fault", i32::from(reply.fault));
    put(report, "duty1", reply.duty[0]);
    put(report, "duty2", reply.duty[1]);
}

// every line of a report ends with a newline
fn put(report: &mut Vec<u8>, name: &str, number: i32) {
    report.extend_from_slice(format!("{name}={number}\n").as_bytes());
}
