//! Runs the built programs on traces.

use crate::{explain, traces};
use std::io::{Read, Result as Ran, Write};
use std::process::{Command, Stdio};
use std::thread;

/// How many traces go through a program.
pub const TRACES: u64 = 300;

/// What the program prints when it is given `text`.
pub fn report_of(path: &str, text: &[u8]) -> Ran<Vec<u8>> {
    let mut child = Command::new(path)
        .stdin(Stdio::piped())
        .stdout(Stdio::piped())
        .spawn()?;
    let mut input = child.stdin.take().expect("standard input is piped");
    let mut output = child.stdout.take().expect("standard output is piped");
    let mut report = Vec::new();
    thread::scope(|scope| {
        // The program may stop reading a text that is too long, so a failed write is no error.
        scope.spawn(move || drop(input.write_all(text)));
        output.read_to_end(&mut report)
    })?;
    child.wait()?;
    Ok(report)
}

/// The same, with an error in words as a report of its own, so that it is found like any difference.
pub fn told_by(path: &str, text: &[u8]) -> Vec<u8> {
    report_of(path, text).unwrap_or_else(|error| error.to_string().into_bytes())
}

/// Runs the first traces through the built replay too.
pub fn compare_replay(path: &str, seed: u64) -> Result<(), String> {
    report_of(path, b"").map_err(|error| format!("{path}: {error}"))?;
    let keeper = |text: &[u8]| told_by(path, text);
    for index in 0..TRACES {
        let text = traces::trace(seed, index);
        if keeper(&text) != explain::second_report(&text) {
            return Err(explain::report(seed, index, &keeper));
        }
    }
    println!("{path}: {TRACES} traces, all alike");
    Ok(())
}
