//! What the compared traces and reports have reached.

use crate::ages::Ages;
use crate::alerts::{self, Alerts};
use crate::diodes::Diodes;
use crate::facts::Facts;
use crate::offsets::{Offsets, CASES};
use crate::panels::Panels;
use snezhulka::Event;

/// 12 is a row's alone.
const ANSWERS: [usize; 13] = [0, 1, 2, 3, 4, 5, 6, 7, 8, 9, 10, 11, 13];
const FULL_DUTY: usize = 240;
const LEAST_DUTIES: usize = 150;

pub struct Coverage {
    pub traces: u64,
    pub events: u64,
    answers: [u64; ANSWERS.len()],
    int: u64,
    therm: u64,
    fault: u64,
    duties: [bool; FULL_DUTY + 1],
    samples: [[u64; 3]; CASES.len()],
    alerts: [u64; alerts::CASES.len()],
    facts: Facts,
    diodes: Diodes,
    pub panels: Panels,
    pub ages: Ages,
}

impl Coverage {
    /// Nothing seen yet.
    pub fn none() -> Coverage {
        Coverage {
            traces: 0,
            events: 0,
            answers: [0; ANSWERS.len()],
            int: 0,
            therm: 0,
            fault: 0,
            duties: [false; FULL_DUTY + 1],
            samples: [[0; 3]; CASES.len()],
            alerts: [0; alerts::CASES.len()],
            facts: Facts::none(),
            diodes: Diodes::none(),
            panels: Panels::none(),
            ages: Ages::none(),
        }
    }

    /// Counts the lines of one report, and what samples, alerts, fans and diode errors meet where every line of the trace is
    /// right.
    pub fn count(&mut self, events: Option<&[Event]>, report: &[u8]) {
        self.traces += 1;
        self.count_alerts(events.unwrap_or_default());
        self.facts.count(events.unwrap_or_default());
        self.diodes.count(events.unwrap_or_default());
        let mut events = events.unwrap_or_default().iter();
        let mut offsets = Offsets::none();
        for line in report.split(|&byte| byte == b'\n') {
            if let Some(number) = number_after(line, b"answer=") {
                self.count_answer(number);
                let done = events.next().filter(|_| number == 0);
                if let Some((channel, met)) = done.and_then(|event| offsets.take(event)) {
                    self.count_sample(channel, met);
                }
            } else if let Some(duty) =
                number_after(line, b"duty1=").or(number_after(line, b"duty2="))
            {
                if duty <= FULL_DUTY {
                    self.duties[duty] = true;
                }
            } else {
                self.int += u64::from(line == b"int=1");
                self.therm += u64::from(line == b"therm=1");
                self.fault += u64::from(line == b"fault=1");
            }
        }
    }

    /// Answers 10 and 11 end a report and belong to no event.
    fn count_answer(&mut self, number: usize) {
        if let Some(place) = ANSWERS.iter().position(|&answer| answer == number) {
            self.answers[place] += 1;
        }
        if !(10..=11).contains(&number) {
            self.events += 1;
        }
    }

    fn count_sample(&mut self, channel: usize, met: [bool; CASES.len()]) {
        for (counts, met) in self.samples.iter_mut().zip(met) {
            counts[channel] += u64::from(met);
        }
    }

    fn count_alerts(&mut self, events: &[Event]) {
        let mut alerts = Alerts::none();
        for met in events.iter().filter_map(|event| alerts.take(event)) {
            for (count, met) in self.alerts.iter_mut().zip(met) {
                *count += u64::from(met);
            }
        }
    }

    pub fn add(&mut self, other: &Coverage) {
        self.traces += other.traces;
        self.events += other.events;
        for (sum, more) in self.answers.iter_mut().zip(other.answers) {
            *sum += more;
        }
        self.int += other.int;
        self.therm += other.therm;
        self.fault += other.fault;
        for (seen, more) in self.duties.iter_mut().zip(other.duties) {
            *seen |= more;
        }
        let sums = self.samples.as_flattened_mut().iter_mut();
        for (sum, more) in sums.zip(other.samples.as_flattened()) {
            *sum += more;
        }
        for (sum, more) in self.alerts.iter_mut().zip(other.alerts) {
            *sum += more;
        }
        self.facts.add(&other.facts);
        self.diodes.add(&other.diodes);
        self.panels.add(&other.panels);
        self.ages.add(&other.ages);
    }

    fn distinct_duties(&self) -> usize {
        self.duties.iter().filter(|&&seen| seen).count()
    }

    pub fn print(&self) {
        for (number, count) in ANSWERS.iter().zip(self.answers) {
            println!("answer={number:<4} {count:>10}");
        }
        println!("int=1       {:>10}", self.int);
        println!("therm=1     {:>10}", self.therm);
        println!("fault=1     {:>10}", self.fault);
        println!("duties      {:>10}", self.distinct_duties());
        println!("samples of the channels 0, 1, 2, by their offsets:");
        for (case, [local, first, second]) in CASES.iter().zip(self.samples) {
            println!("{case:<15} {local:>10} {first:>10} {second:>10}");
        }
        println!("alerts, and events while INT is let go:");
        for (case, count) in alerts::CASES.iter().zip(self.alerts) {
            println!("{case:<26} {count:>10}");
        }
        self.facts.print();
        self.diodes.print();
        self.panels.print();
        self.ages.print();
    }

    /// What was never reached; nothing if all was.
    pub fn missing(&self) -> Vec<String> {
        let mut missing = Vec::new();
        for (number, count) in ANSWERS.iter().zip(self.answers) {
            if count == 0 {
                missing.push(format!("answer={number}"));
            }
        }
        for (name, count) in [
            ("int=1", self.int),
            ("therm=1", self.therm),
            ("fault=1", self.fault),
        ] {
            if count == 0 {
                missing.push(name.to_string());
            }
        }
        if self.distinct_duties() < LEAST_DUTIES {
            missing.push(format!("{LEAST_DUTIES} distinct duties"));
        }
        for (case, counts) in CASES.iter().zip(self.samples) {
            for channel in (0..3).filter(|&channel| counts[channel] == 0) {
                missing.push(format!("a sample of channel {channel}, {case}"));
            }
        }
        for (case, count) in alerts::CASES.iter().zip(self.alerts) {
            if count == 0 {
                missing.push(case.to_string());
            }
        }
        missing.extend(self.facts.missing());
        missing.extend(self.diodes.missing());
        missing.extend(self.panels.missing());
        missing.extend(self.ages.missing());
        missing
    }
}

fn number_after(line: &[u8], name: &[u8]) -> Option<usize> {
    let digits = line.strip_prefix(name)?;
    std::str::from_utf8(digits).ok()?.parse().ok()
}

#[cfg(test)]
mod tests;
