//! A built program that answers a text in a few lines, beside the second program: the first traces, each whole and up to
//! some events, and texts of its own.

use crate::program::{report_of, told_by, TRACES};
use crate::random::Random;
use crate::{shrink, traces};

/// Up to so many events of each trace, beside the whole.
const PARTS: usize = 4;

/// The program, what the second program says to a text, and the shapes of lines that must come.
pub struct Told<'a> {
    pub path: &'a str,
    pub second: fn(&[u8]) -> Vec<u8>,
    pub shapes: &'a [&'a str],
}

impl Told<'_> {
    /// Runs the texts through the program; fails where one differs, or where a shape that may come never does.
    pub fn compare(&self, texts: &[Vec<u8>], seed: u64) -> Result<(), String> {
        let path = self.path;
        report_of(path, b"").map_err(|error| format!("{path}: {error}"))?;
        let mut seen = vec![false; self.shapes.len()];
        for (place, text) in texts.iter().enumerate() {
            let name = format!("{path}: text {place} of its own differs\n");
            self.take(text, &mut seen).map_err(|words| name + &words)?;
        }
        for index in 0..TRACES {
            let text = traces::trace(seed, index);
            for text in parts_of(&text, seed, index) {
                let name = format!("{path}: seed {seed}, trace {index} differs\n");
                self.take(&text, &mut seen).map_err(|words| name + &words)?;
            }
        }
        let shapes = self.shapes.iter().zip(seen);
        let missing: Vec<&str> = shapes.filter(|shape| !shape.1).map(|s| *s.0).collect();
        if !missing.is_empty() {
            return Err(format!("{path} never said: {}", missing.join(", ")));
        }
        println!("{path}: {TRACES} traces, whole and in part, all alike");
        Ok(())
    }

    /// A panic counts as words of its own.
    fn second_words(&self, text: &[u8]) -> Vec<u8> {
        let second = self.second;
        std::panic::catch_unwind(|| second(text)).unwrap_or_else(|_| b"panic\n".to_vec())
    }

    /// Marks the shapes of the lines that a text is answered with, if both say the same.
    fn take(&self, text: &[u8], seen: &mut [bool]) -> Result<(), String> {
        let words = self.second_words(text);
        if told_by(self.path, text) != words {
            return Err(self.explained(text));
        }
        for line in String::from_utf8_lossy(&words).lines() {
            let shape = shape(line);
            for (name, seen) in self.shapes.iter().zip(&mut *seen) {
                *seen |= *name == shape;
            }
        }
        Ok(())
    }

    fn explained(&self, text: &[u8]) -> String {
        let both = |text: &[u8]| [told_by(self.path, text), self.second_words(text)];
        let differs = |rest: &[u8]| {
            let [ours, theirs] = both(rest);
            ours != theirs
        };
        let short = shrink::shortest(text, &differs);
        let [ours, theirs] = both(&short);
        format!(
            "shortest trace that differs:\n{}keeper:\n{}second program:\n{}",
            shrink::shown_trace(&short),
            shrink::shown_trace(&ours),
            shrink::shown_trace(&theirs),
        )
    }
}

/// A line with N for each of its numbers; an answer, and the digit of a name, stay.
fn shape(line: &str) -> String {
    let Some((name, words)) = line.split_once('=').filter(|line| line.0 != "answer") else {
        return line.to_string();
    };
    let mut shape = format!("{name}=");
    let mut number = false;
    for letter in words.chars() {
        if !letter.is_ascii_digit() {
            shape.push(letter);
        } else if !number {
            shape.push('N');
        }
        number = letter.is_ascii_digit();
    }
    shape
}

/// Parts of a trace, each its first events, also none or all; then the whole.
fn parts_of(text: &[u8], seed: u64, index: u64) -> Vec<Vec<u8>> {
    let events = shrink::parts(text, 4);
    let mut random = Random::new(!seed, index);
    let mut parts: Vec<_> = (0..PARTS)
        .map(|_| events[..random.below(events.len() + 1)].concat())
        .collect();
    parts.push(text.to_vec());
    parts
}

#[cfg(test)]
mod tests {
    use super::{parts_of, shape, PARTS};
    use crate::traces;

    #[test]
    fn the_first_events_are_a_part() {
        for index in 0..40 {
            let text = traces::trace(1, index);
            let parts = parts_of(&text, 1, index);
            assert_eq!(parts.len(), PARTS + 1);
            assert_eq!(parts.last(), Some(&text));
            for part in parts {
                assert!(text.starts_with(&part));
                let lines = part.iter().filter(|&&byte| byte == b'\n').count();
                assert!(lines % 4 == 0 || part == text, "trace {index}");
            }
        }
    }

    #[test]
    fn numbers_have_one_shape() {
        assert_eq!(shape("reason1=ramp 160 down 80"), "reason1=ramp N down N");
        assert_eq!(shape("reason2=zero"), "reason2=zero");
        assert_eq!(shape("local=-12"), "local=-N");
        assert_eq!(shape("fan1=3375"), "fan1=N");
        assert_eq!(shape("answer=11"), "answer=11");
        assert_eq!(shape("7"), "7");
    }
}
