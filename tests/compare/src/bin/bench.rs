//! Times the proved replay, the engine alone, and the engine with the reasons after each event, beside the second program,
//! on the same traces in one run: medians over rounds, as a ratio.

use compare::{events, traces};
use second::keeper::{Event, Keeper, Reply};
use std::hint::black_box;
use std::io::Write;
use std::time::Instant;

const ROUNDS: usize = 15;
// Bytes of text that one round takes, so that a short text is timed as long as a long one.
const ROUND_BYTES: usize = 1 << 20;
const SIZES: [usize; 7] = [
    1 << 10,
    1 << 11,
    1 << 12,
    1 << 13,
    1 << 14,
    1 << 15,
    1 << 16,
];

/// Guided traces one after the other, whole events, at most `size` bytes.
fn text_of(size: usize) -> Vec<u8> {
    let mut text: Vec<u8> = Vec::new();
    // Traces whose number is a multiple of 20 are guided ones.
    for index in (0..).step_by(20) {
        if text.len() >= size {
            break;
        }
        text.extend(traces::trace(7, index));
    }
    text.truncate(size);
    while !is_whole(&text) {
        text.pop();
    }
    text
}

/// Whether the text ends with the last line of an event.
fn is_whole(text: &[u8]) -> bool {
    let lines = text.iter().filter(|&&byte| byte == b'\n').count();
    text.is_empty() || (text.ends_with(b"\n") && lines % 4 == 0)
}

/// Nanoseconds that one call takes, over a round of them.
fn time(calls: usize, call: &mut dyn FnMut()) -> f64 {
    let start = Instant::now();
    for _ in 0..calls {
        call();
    }
    start.elapsed().as_nanos() as f64 / calls as f64
}

/// The medians of both, taken by turns.
fn medians(calls: usize, ours: &mut dyn FnMut(), theirs: &mut dyn FnMut()) -> (f64, f64) {
    let mut times = (Vec::new(), Vec::new());
    for _ in 0..ROUNDS {
        times.0.push(time(calls, ours));
        times.1.push(time(calls, theirs));
    }
    (median(times.0), median(times.1))
}

fn median(mut times: Vec<f64>) -> f64 {
    times.sort_by(f64::total_cmp);
    times[times.len() / 2]
}

/// The whole replay, text to report: both programs on one text, in nanoseconds.
fn replays(text: &[u8]) -> (f64, f64) {
    let mut report = vec![0; 3 * text.len() + 26];
    let mut ours = || {
        black_box(snezhulka::replay(black_box(text), &mut report)).expect("the buffer suffices");
    };
    let mut theirs = || {
        black_box(second::replay(black_box(text)));
    };
    medians(ROUND_BYTES / text.len(), &mut ours, &mut theirs)
}

/// The engine alone, events to outcomes, in nanoseconds. Each takes the events in its own form, made beforehand.
fn engines(text: &[u8]) -> (f64, f64) {
    let events = events::events_of(text).expect("every line is right");
    let mut outcomes = vec![[0; 7]; events.len()];
    let mut ours = || {
        let taken = snezhulka::steps(black_box(&events), &mut outcomes);
        assert_eq!(taken, Ok(events.len()));
    };
    let own_events: Vec<Event> = events.iter().map(events::second_event).collect();
    let mut replies: Vec<Reply> = Vec::with_capacity(events.len());
    let mut theirs = || {
        let mut keeper = Keeper::new();
        replies.clear();
        replies.extend(
            black_box(&own_events)
                .iter()
                .map(|&event| keeper.take(event)),
        );
        black_box(&replies);
    };
    medians(ROUND_BYTES / text.len(), &mut ours, &mut theirs)
}

/// Events to the reasons of both fans after each, in nanoseconds.
fn tellings(text: &[u8]) -> (f64, f64) {
    let events = events::events_of(text).expect("every line is right");
    let mut ours = || {
        black_box(snezhulka::reasons(black_box(&events)));
    };
    let own_events: Vec<Event> = events.iter().map(events::second_event).collect();
    let mut theirs = || {
        let mut keeper = Keeper::new();
        let told = black_box(&own_events).iter().map(|&event| {
            keeper.take(event);
            [keeper.why(1), keeper.why(2)]
        });
        black_box(told.collect::<Vec<_>>());
    };
    medians(ROUND_BYTES / text.len(), &mut ours, &mut theirs)
}

/// One line: a size, and both programs on it.
fn measure(size: usize) {
    let text = text_of(size);
    let events = text.iter().filter(|&&byte| byte == b'\n').count() as f64 / 4.0;
    let (ours, theirs) = replays(&text);
    let (our_engine, their_engine) = engines(&text);
    let (our_reasons, their_reasons) = tellings(&text);
    println!(
        "{size:>7} {:>10.0} {:>10.0} {:>10.1} {:>10.1} {:>7.2} {:>10.0} {:>10.0} {:>7.2} {:>10.0} {:>10.0} {:>7.2}",
        ours / events,
        theirs / events,
        text.len() as f64 * 1e3 / ours,
        text.len() as f64 * 1e3 / theirs,
        theirs / ours,
        our_engine / events,
        their_engine / events,
        their_engine / our_engine,
        our_reasons / events,
        their_reasons / events,
        their_reasons / our_reasons,
    );
}

/// With `--trace SIZE` only the guided trace of a size, on standard output: what tests/instructions counts.
fn main() {
    let words: Vec<String> = std::env::args().skip(1).collect();
    match words.as_slice() {
        [] => measure_all(),
        [word, size] if word == "--trace" => print_trace(size.parse().expect("a size in bytes")),
        _ => panic!("bench, or bench --trace SIZE"),
    }
}

fn print_trace(size: usize) {
    let written = std::io::stdout().write_all(&text_of(size));
    written.expect("standard output takes the trace");
}

fn measure_all() {
    println!("        whole replay                                      engine alone                  with reasons");
    println!(
        "  bytes   ns/event ns/event 2   MB/s text MB/s text 2  ratio   ns/event ns/event 2  ratio   ns/event ns/event 2  ratio"
    );
    SIZES.into_iter().for_each(measure);
}
