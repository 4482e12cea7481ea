//! The panel after some events of a trace, bit for bit, beside the second program's.

mod asked;
mod cases;
mod course;
mod every;
mod refusals;

pub use cases::Panels;

use crate::events::second_event;
use asked::{asked, Asked};
use second::keeper::{Keeper, Panel, Speed};
use snezhulka::{Event, FanSpeed};

/// Every so many traces the safe call is tried too.
const SOME: u64 = 16;

/// What the buffers hold before a call.
const MARKER: u8 = 0xaa;

/// The lengths of the buffers for figures and for cases.
type Room = (usize, usize);

/// Those that are enough: the least, and one more.
const ENOUGH: [Room; 4] = [(5, 2), (6, 2), (5, 3), (6, 3)];

/// The reply number, and the buffers after the call: the bits of the figures, and the cases.
type Given = (usize, Vec<u64>, Vec<u8>);

extern "C" {
    fn snezhulka_panel(
        numbers: *const i32,
        count: usize,
        figures: *mut f64,
        figures_len: usize,
        cases: *mut u8,
        cases_len: usize,
    ) -> usize;
}

/// Both buffers before a call.
fn marked((figures, cases): Room) -> (Vec<f64>, Vec<u8>) {
    let marker = f64::from_ne_bytes([MARKER; 8]);
    (vec![marker; figures], vec![MARKER; cases])
}

fn given(number: usize, figures: &[f64], cases: Vec<u8>) -> Given {
    let bits = figures.iter().map(|figure| figure.to_bits()).collect();
    (number, bits, cases)
}

fn proved(numbers: &[i32], room: Room) -> Given {
    let (mut figures, mut cases) = marked(room);
    // Safety: all slices are alive, each goes with its own length, and they don't overlap.
    let number = unsafe {
        snezhulka_panel(
            numbers.as_ptr(),
            numbers.len(),
            figures.as_mut_ptr(),
            figures.len(),
            cases.as_mut_ptr(),
            cases.len(),
        )
    };
    given(number, &figures, cases)
}

/// A refusal, which leaves both buffers.
fn refused(number: usize, room: Room) -> Given {
    let (figures, cases) = marked(room);
    given(number, &figures, cases)
}

/// The second program's, in buffers that are long enough.
fn second(panel: Result<Panel, u8>, room: Room) -> Given {
    let panel = match panel {
        Ok(panel) => panel,
        Err(number) => return refused(usize::from(number), room),
    };
    let (mut figures, mut cases) = marked(room);
    figures[..3].copy_from_slice(&panel.degrees);
    for (fan, speed) in panel.speeds.into_iter().enumerate() {
        (cases[fan], figures[3 + fan]) = match speed {
            Speed::NotMeasured => (0, 0.0),
            Speed::Stalled => (1, 0.0),
            Speed::Turning(revolutions) => (2, revolutions),
        };
    }
    given(0, &figures, cases)
}

/// What the safe call gives, in the same buffers.
fn safe(events: &[Event]) -> Given {
    let speed = |fan| match fan {
        FanSpeed::NotMeasured => Speed::NotMeasured,
        FanSpeed::Stalled => Speed::Stalled,
        FanSpeed::Speed(revolutions) => Speed::Turning(revolutions),
    };
    let panel = snezhulka::panel(events).map(|panel| Panel {
        degrees: [panel.local, panel.remote1, panel.remote2],
        speeds: [panel.fan1, panel.fan2].map(speed),
    });
    second(panel, ENOUGH[0])
}

/// The events after which the panel differs, if it does where it is asked for; the first trace brings the other lists too.
pub fn different_after(events: &[Event], index: u64) -> Option<Vec<Event>> {
    let mut keeper = Keeper::new();
    let mut taken = 0;
    for Asked { count, more } in asked(events, index) {
        take_all(&mut keeper, &events[taken..count]);
        taken = count;
        let mut after = keeper.clone();
        take_all(&mut after, &more);
        let room = ENOUGH[(index as usize + count) % ENOUGH.len()];
        let all = [&events[..count], &more].concat();
        if proved(all.as_flattened(), room) != second(after.panel(), room) {
            return Some(all);
        }
    }
    let mut others = every::lists().filter(|_| index == 0);
    others.find(|events| differs_at_the_end(events))
}

fn take_all(keeper: &mut Keeper, events: &[Event]) {
    for event in events {
        keeper.take(second_event(event));
    }
}

/// What of the panels differs, if any of it does.
pub fn difference(events: &[Event], index: u64) -> Option<&'static str> {
    if different_after(events, index).is_some() {
        Some("the panel")
    } else if index.is_multiple_of(SOME) && safe(events) != both(events)[1] {
        Some("the panel by the safe call")
    } else if !refusals::alike(events, index) {
        Some("a panel that is refused")
    } else {
        None
    }
}

/// Both panels after the last event.
fn both(events: &[Event]) -> [Given; 2] {
    let mut keeper = Keeper::new();
    take_all(&mut keeper, events);
    let ours = proved(events.as_flattened(), ENOUGH[0]);
    [ours, second(keeper.panel(), ENOUGH[0])]
}

/// Whether the panel after the last event differs.
pub fn differs_at_the_end(events: &[Event]) -> bool {
    let [ours, theirs] = both(events);
    ours != theirs
}

/// Both panels after the last event in words: the reply number, the figures and the cases.
pub fn shown(events: &[Event]) -> String {
    let [ours, theirs] = both(events).map(|(number, bits, cases)| {
        let figures: Vec<f64> = bits.into_iter().map(f64::from_bits).collect();
        format!("  answer {number}, {figures:?}, {cases:?}")
    });
    format!("after its last event:\nkeeper:\n{ours}\nsecond program:\n{theirs}")
}

#[cfg(test)]
mod tests;
