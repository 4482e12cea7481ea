//! Compares the proved keeper with the second program, byte for byte, over random traces, rows of alert entries and long
//! lists of events.
//!
//! compare [--traces N] [--seed S] [--program PATH] [--why PATH] [--panel PATH]

use compare::finding::Finding;
use compare::{ages, displays, explain, program, rows, traces, whys};
use std::process::ExitCode;
use std::sync::atomic::{AtomicBool, AtomicU64, Ordering};
use std::thread;

const THREADS: usize = 2;
const USAGE: &str =
    "usage: compare [--traces N] [--seed S] [--program PATH] [--why PATH] [--panel PATH]";

struct Arguments {
    traces: u64,
    seed: u64,
    program: Option<String>,
    why: Option<String>,
    panel: Option<String>,
}

fn arguments() -> Result<Arguments, String> {
    let mut arguments = Arguments {
        traces: 20_000,
        seed: 1,
        program: None,
        why: None,
        panel: None,
    };
    let mut words = std::env::args().skip(1);
    while let Some(word) = words.next() {
        let value = words.next().ok_or(USAGE)?;
        match word.as_str() {
            "--traces" => arguments.traces = number(&value)?,
            "--seed" => arguments.seed = number(&value)?,
            "--program" => arguments.program = Some(value),
            "--why" => arguments.why = Some(value),
            "--panel" => arguments.panel = Some(value),
            _ => return Err(USAGE.to_string()),
        }
    }
    Ok(arguments)
}

fn number(word: &str) -> Result<u64, String> {
    word.parse()
        .map_err(|_| format!("{word} is no number\n{USAGE}"))
}

/// Takes one trace after the other until all are taken or one differs.
fn compare_some(arguments: &Arguments, next: &AtomicU64, stop: &AtomicBool) -> Finding {
    let mut finding = Finding::nothing();
    while !stop.load(Ordering::Relaxed) {
        let index = next.fetch_add(1, Ordering::Relaxed);
        if index >= arguments.traces {
            break;
        }
        finding.take(&traces::trace(arguments.seed, index), index);
        if finding.different.is_some() {
            stop.store(true, Ordering::Relaxed);
        }
    }
    finding
}

/// Compares all traces in process; the least number of a trace that differs is given, whatever the threads do.
fn compare_all(arguments: &Arguments) -> Finding {
    let (next, stop) = (AtomicU64::new(0), AtomicBool::new(false));
    let mut all = Finding::nothing();
    thread::scope(|scope| {
        let start = |_| scope.spawn(|| compare_some(arguments, &next, &stop));
        let threads: Vec<_> = (0..THREADS).map(start).collect();
        for thread in threads {
            let finding = thread.join().expect("a comparing thread ends by itself");
            all.add(&finding);
        }
    });
    all
}

fn run() -> Result<(), String> {
    let arguments = arguments()?;
    let rows = rows::compare(arguments.seed)?;
    let mut finding = compare_all(&arguments);
    if let Some(index) = finding.different {
        return Err(explain::in_process(arguments.seed, index));
    }
    finding.coverage.ages.add(&ages::compare(arguments.seed)?);
    if let Some(path) = &arguments.program {
        program::compare_replay(path, arguments.seed)?;
    }
    if let Some(path) = &arguments.why {
        whys::compare(path, arguments.seed)?;
    }
    if let Some(path) = &arguments.panel {
        displays::compare(path, arguments.seed)?;
    }
    finding.coverage.print();
    let missing = finding.missing();
    if !missing.is_empty() {
        return Err(format!("never reached: {}", missing.join(", ")));
    }
    finding.print();
    println!("rows of alert entries answered 0, 6, 12: {rows:?} times");
    finding.print_end();
    Ok(())
}

fn main() -> ExitCode {
    match run() {
        Ok(()) => ExitCode::SUCCESS,
        Err(message) => {
            println!("{message}");
            ExitCode::FAILURE
        }
    }
}
