//! Compares traces in process, and counts what was tried.

use crate::coverage::Coverage;
use crate::explain::second_report;
use crate::{ages, events, images, lines, panels, reasons};

/// What one thread has counted, and the first trace that differs, if any.
pub struct Finding {
    pub coverage: Coverage,
    engine_traces: u64,
    images: [u64; images::NUMBERS.len()],
    whole_copies: u64,
    part_copies: u64,
    lines: [u64; lines::ENDS.len()],
    pub different: Option<u64>,
}

impl Finding {
    pub fn nothing() -> Self {
        Finding {
            coverage: Coverage::none(),
            engine_traces: 0,
            images: [0; images::NUMBERS.len()],
            whole_copies: 0,
            part_copies: 0,
            lines: [0; lines::ENDS.len()],
            different: None,
        }
    }

    /// Compares one trace: the replay; where the text is right, the engine alone, the register image, the reasons, the
    /// panels and the ages; the text written again, and its first wrong line.
    pub fn take(&mut self, text: &[u8], index: u64) {
        let expected = second_report(text);
        let report = snezhulka::report_of(text);
        let events = events::events_of(text);
        let events = events.as_deref();
        let by_engine = events.map(events::report_after);
        self.engine_traces += u64::from(by_engine.is_some());
        let image_alike = events.is_none_or(|events| self.take_image(events, index));
        let reasons = events.and_then(|events| reasons::difference(events, index));
        let panels = events.and_then(|events| panels::difference(events, index));
        let ages = events.and_then(|events| ages::difference(events, index));
        let told_alike = reasons.is_none() && panels.is_none() && ages.is_none();
        let copy_alike = self.take_copy(text, index);
        let line_alike = self.take_line(text, index);
        let report_alike = report == expected && by_engine.is_none_or(|report| report == expected);
        if report_alike && image_alike && told_alike && copy_alike && line_alike {
            self.coverage.count(events, &report);
            if let Some(events) = events {
                self.coverage.panels.count(events, index);
                self.coverage.ages.count(events, index);
            }
        } else {
            self.different = Some(index);
        }
    }

    fn take_image(&mut self, events: &[snezhulka::Event], index: u64) -> bool {
        let image = images::proved_image(events, index);
        for (number, seen) in images::NUMBERS.iter().zip(&mut self.images) {
            *seen += u64::from(image.0 == *number);
        }
        image == images::second_image(events, index)
    }

    fn take_copy(&mut self, text: &[u8], index: u64) -> bool {
        let copy = images::proved_copy(text, index);
        if copy.0 == text.len() {
            self.whole_copies += 1;
        } else {
            self.part_copies += 1;
        }
        copy == images::second_copy(text, index)
    }

    fn take_line(&mut self, text: &[u8], index: u64) -> bool {
        let line = lines::proved_line(text, index);
        self.lines[lines::end_of(&line)] += 1;
        line == lines::second_line(text, index)
    }

    /// Adds what another thread has found.
    pub fn add(&mut self, other: &Finding) {
        self.coverage.add(&other.coverage);
        self.engine_traces += other.engine_traces;
        for (mine, theirs) in self.images.iter_mut().zip(other.images) {
            *mine += theirs;
        }
        self.whole_copies += other.whole_copies;
        self.part_copies += other.part_copies;
        for (mine, theirs) in self.lines.iter_mut().zip(other.lines) {
            *mine += theirs;
        }
        self.different = self.different.into_iter().chain(other.different).min();
    }

    /// What was never tried.
    pub fn missing(&self) -> Vec<String> {
        let mut missing = self.coverage.missing();
        let counts = [
            (self.engine_traces, "the engine alone"),
            (self.whole_copies, "a text written again whole"),
            (self.part_copies, "a text written again in part"),
        ];
        missing.extend(
            counts
                .iter()
                .filter(|count| count.0 == 0)
                .map(|count| count.1.to_string()),
        );
        for (number, seen) in images::NUMBERS.iter().zip(self.images) {
            if seen == 0 {
                missing.push(format!("an image answered {number}"));
            }
        }
        for (end, seen) in lines::ENDS.iter().zip(self.lines) {
            if seen == 0 {
                missing.push(end.to_string());
            }
        }
        missing
    }

    /// What was tried beside the reports.
    pub fn print(&self) {
        println!(
            "register images answered 0, 1, 10, 11: {:?} times; texts written again whole {}, in part {}",
            self.images, self.whole_copies, self.part_copies
        );
        println!(
            "first wrong lines that are none or empty, put, too long: {:?}",
            self.lines
        );
    }

    /// How many traces were compared, and that none differs.
    pub fn print_end(&self) {
        println!(
            "compared {} traces, {} events, all alike; {} of the traces with the engine alone, the reasons, the ages and the panel too",
            self.coverage.traces, self.coverage.events, self.engine_traces
        );
    }
}
