//! What the fans meet of T-03, seen by the second program: which reason is given, which others hold too, and in which
//! cases.

use crate::events::second_event;
use second::keeper::{Keeper, Reason};
use snezhulka::Event;

const FANS: usize = 2;

/// The reasons, in the ticket's order.
const REASONS: [&str; 8] = [
    "disabled", "pin", "therm", "zero", "spin", "ramp", "manual", "demand",
];

/// Those that never hold together: a spin-up ends as the duty becomes 0, and a duty of 0 is at a target of 0.
const APART: [(usize, usize); 3] = [(0, 4), (3, 4), (3, 5)];

/// What a fan may meet beside.
const CASES: [&str; 17] = [
    "before power",
    "a refused event",
    "therm, local",
    "therm, remote 1",
    "therm, remote 2",
    "therm, not assigned",
    "disabled, from spin",
    "ramp up",
    "ramp down",
    "manual, filter on",
    "demand, filter on",
    "demand, local",
    "demand, remote 1",
    "demand, remote 2",
    "demand, tie at 240",
    "demand, tie below",
    "demand, not hottest",
];

/// For each fan how often a reason was given, on the diagonal, and beside it how often while another held too; and how
/// often each of the cases was met.
pub struct Facts {
    given: [[[u64; REASONS.len()]; REASONS.len()]; FANS],
    cases: [[u64; CASES.len()]; FANS],
}

impl Facts {
    /// Nothing seen yet.
    pub fn none() -> Facts {
        Facts {
            given: [[[0; REASONS.len()]; REASONS.len()]; FANS],
            cases: [[0; CASES.len()]; FANS],
        }
    }

    /// Counts what the fans meet after each event of a trace.
    pub fn count(&mut self, events: &[Event]) {
        let mut keeper = Keeper::new();
        let mut before = [Err(1); FANS];
        for event in events {
            let refused = keeper.take(second_event(event)).answer != 0;
            for (fan, before) in before.iter_mut().enumerate() {
                let why = keeper.why(fan as i32 + 1);
                let held = [why.is_err(), why.is_ok() && refused];
                let spun = matches!(before, Ok(Reason::SpinUp(_)));
                let met = why.map_or([false; CASES.len() - 2], |why| met(&keeper, fan, why, spun));
                for (count, met) in self.cases[fan].iter_mut().zip(held.iter().chain(&met)) {
                    *count += u64::from(*met);
                }
                if why.is_ok() {
                    self.count_given(fan, &keeper.facts(fan));
                }
                *before = why;
            }
        }
    }

    fn count_given(&mut self, fan: usize, facts: &[Option<Reason>; REASONS.len()]) {
        let first = facts.iter().position(Option::is_some);
        let counts = &mut self.given[fan][first.expect("a demand always holds")];
        for (count, fact) in counts.iter_mut().zip(facts) {
            *count += u64::from(fact.is_some());
        }
    }

    pub fn add(&mut self, other: &Facts) {
        let given = self.given.as_flattened_mut().as_flattened_mut();
        let more = other.given.as_flattened().as_flattened();
        let cases = self.cases.as_flattened_mut();
        let sums = given.iter_mut().chain(cases);
        for (sum, more) in sums.zip(more.iter().chain(other.cases.as_flattened())) {
            *sum += more;
        }
    }

    pub fn print(&self) {
        for (fan, given) in self.given.iter().enumerate() {
            println!("reasons of fan {}, and which hold too:", fan + 1);
            println!("{:<8} {:>9}{}", "", "given", columns(&REASONS[1..]));
            for (place, counts) in given.iter().enumerate() {
                let beside = " ".repeat(10 * place) + &columns(&counts[place + 1..]);
                println!("{:<8} {:>9}{beside}", REASONS[place], counts[place]);
            }
        }
        println!("cases of the reasons, fan 1 and fan 2:");
        for (case, name) in CASES.iter().enumerate() {
            let [first, second] = self.cases.map(|counts| counts[case]);
            println!("{name:<20} {first:>10} {second:>10}");
        }
    }

    /// What was never met; nothing if all was.
    pub fn missing(&self) -> Vec<String> {
        let mut missing = Vec::new();
        for fan in 0..FANS {
            for (place, reason) in REASONS.iter().enumerate() {
                for (too, other) in REASONS.iter().enumerate().skip(place) {
                    if self.given[fan][place][too] == 0 && !APART.contains(&(place, too)) {
                        missing.push(format!("fan {}: {reason}, {other} too", fan + 1));
                    }
                }
            }
            let cases = CASES.iter().zip(self.cases[fan]).filter(|case| case.1 == 0);
            missing.extend(cases.map(|(name, _)| format!("fan {}: {name}", fan + 1)));
        }
        missing
    }
}

fn columns<T: std::fmt::Display>(cells: &[T]) -> String {
    cells.iter().map(|cell| format!(" {cell:>9}")).collect()
}

/// Which of the cases but the first two a fan meets that has a reason; `spun` where it was spinning up before the event.
fn met(keeper: &Keeper, fan: usize, why: Reason, spun: bool) -> [bool; CASES.len() - 2] {
    let therm = |channel| why == Reason::Latched(channel);
    let demand = |channel| why == Reason::Demand(channel);
    let (manual, asked) = (why == Reason::Manual, matches!(why, Reason::Demand(_)));
    let unassigned = |channel| therm(channel) && !keeper.assigned(fan).contains(&channel);
    let ramp = |up| matches!(why, Reason::Ramp { to_go, .. } if (to_go > 0) == up);
    let tie = tie(keeper, fan, why);
    [
        therm(0),
        therm(1),
        therm(2),
        (0..3).any(unassigned),
        why == Reason::Disabled && spun,
        ramp(true),
        ramp(false),
        manual && keeper.filtered(fan),
        asked && keeper.filtered(fan),
        demand(0),
        demand(1),
        demand(2),
        tie == Some(240),
        tie.is_some_and(|demand| demand < 240),
        hotter(keeper, fan, why),
    ]
}

/// The demand of the channel that is named, where another assigned one has the same.
fn tie(keeper: &Keeper, fan: usize, why: Reason) -> Option<i32> {
    let Reason::Demand(named) = why else {
        return None;
    };
    let demand = keeper.demand(named, fan);
    let mut others = keeper.assigned(fan).iter().filter(|&&other| other != named);
    let found = others.any(|&other| keeper.demand(other, fan) == demand);
    found.then_some(demand)
}

/// Whether another assigned channel is hotter than the one that is named.
fn hotter(keeper: &Keeper, fan: usize, why: Reason) -> bool {
    let Reason::Demand(named) = why else {
        return false;
    };
    let mut assigned = keeper.assigned(fan).iter();
    assigned.any(|&other| keeper.reading(other) > keeper.reading(named))
}

#[cfg(test)]
mod tests;
