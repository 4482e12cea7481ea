//! Says where a trace differs, and shows the shortest one that still does.

use crate::{ages, events, images, lines, panels, reasons, shrink, traces};
use snezhulka::Event;

/// The second program's report; a panic there counts as a report of its own, so that it is found like any difference.
pub fn second_report(text: &[u8]) -> Vec<u8> {
    std::panic::catch_unwind(|| second::replay(text)).unwrap_or_else(|_| b"panic\n".to_vec())
}

/// The report by the engine alone. Wrong text has none, so there the second program stands in for it.
fn engine_report(text: &[u8]) -> Vec<u8> {
    events::report_of(text).unwrap_or_else(|| second_report(text))
}

/// Whether the register image after the first events differs; wrong text has no events.
fn image_differs(text: &[u8], index: u64) -> bool {
    events::events_of(text).is_some_and(|events| {
        images::proved_image(&events, index) != images::second_image(&events, index)
    })
}

/// What of the reasons differs; wrong text has none.
fn reasons_difference(text: &[u8], index: u64) -> Option<&'static str> {
    events::events_of(text).and_then(|events| reasons::difference(&events, index))
}

/// What of the ages differs; wrong text has none.
fn ages_difference(text: &[u8], index: u64) -> Option<&'static str> {
    events::events_of(text).and_then(|events| ages::difference(&events, index))
}

/// What of the panels differs; wrong text has none.
fn panel_difference(text: &[u8], index: u64) -> Option<&'static str> {
    events::events_of(text).and_then(|events| panels::difference(&events, index))
}

/// Whether the text written again differs.
fn copy_differs(text: &[u8], index: u64) -> bool {
    images::proved_copy(text, index) != images::second_copy(text, index)
}

/// Whether the first wrong line differs.
fn line_differs(text: &[u8], index: u64) -> bool {
    lines::proved_line(text, index) != lines::second_line(text, index)
}

/// Says where the report of trace `index` differs, and the shortest trace that still does.
pub fn report(seed: u64, index: u64, keeper: &dyn Fn(&[u8]) -> Vec<u8>) -> String {
    let text = traces::trace(seed, index);
    let place = shrink::first_difference(&text, &keeper(&text), &second_report(&text));
    let short = shrink::shortest(&text, &|rest| keeper(rest) != second_report(rest));
    let short_place = shrink::first_difference(&short, &keeper(&short), &second_report(&short));
    format!(
        "seed {seed}, trace {index} differs\n{place}\nshortest trace that differs:\n{}\nthere, {short_place}",
        shrink::shown_trace(&short),
    )
}

/// Says that something beside the report differs, and the shortest trace at which it does.
fn other(seed: u64, index: u64, what: &str, differs: &dyn Fn(&[u8], u64) -> bool) -> String {
    let short = shrink::shortest(&traces::trace(seed, index), &|rest| differs(rest, index));
    told(seed, index, what, &short)
}

/// What differs of the events of a text, and what both are after its last event.
type Difference = fn(&[u8], u64) -> Option<&'static str>;
type Shown = fn(&[Event]) -> String;

/// The same of the reasons or the ages, and what both are.
fn both(seed: u64, index: u64, what: &str, difference: Difference, shown: Shown) -> String {
    let differs = |text: &[u8]| difference(text, index) == Some(what);
    let short = shrink::shortest(&traces::trace(seed, index), &differs);
    let events = events::events_of(&short).expect("where these differ there are events");
    told(seed, index, what, &short) + &shown(&events)
}

/// The same of the panels: where one differs, the shortest trace after which it does.
fn both_panels(seed: u64, index: u64, what: &str) -> String {
    let text = traces::trace(seed, index);
    let events = events::events_of(&text).expect("where panels differ there are events");
    let Some(after) = panels::different_after(&events, index) else {
        let differs = |text: &[u8], index| panel_difference(text, index) == Some(what);
        return other(seed, index, what, &differs);
    };
    let taken = |text: &[u8]| events::events_of(text).unwrap_or_default();
    let differs = |rest: &[u8]| panels::differs_at_the_end(&taken(rest));
    let short = shrink::shortest(&events::text_of(&after), &differs);
    told(seed, index, what, &short) + &panels::shown(&taken(&short))
}

fn told(seed: u64, index: u64, what: &str, short: &[u8]) -> String {
    format!(
        "{what}: seed {seed}, trace {index} differs\nshortest trace that differs, taken as trace {index}:\n{}",
        shrink::shown_trace(short),
    )
}

/// The same where it isn't known what differs.
pub fn in_process(seed: u64, index: u64) -> String {
    let text = traces::trace(seed, index);
    if snezhulka::report_of(&text) != second_report(&text) {
        report(seed, index, &snezhulka::report_of)
    } else if engine_report(&text) != second_report(&text) {
        format!("the engine alone: {}", report(seed, index, &engine_report))
    } else if image_differs(&text, index) {
        other(seed, index, "the register image", &image_differs)
    } else if let Some(what) = reasons_difference(&text, index) {
        both(seed, index, what, reasons_difference, reasons::shown)
    } else if let Some(what) = ages_difference(&text, index) {
        both(seed, index, what, ages_difference, ages::shown)
    } else if let Some(what) = panel_difference(&text, index) {
        both_panels(seed, index, what)
    } else if copy_differs(&text, index) {
        other(seed, index, "the text written again", &copy_differs)
    } else {
        other(seed, index, "the first wrong line", &line_differs)
    }
}
