//! Safe calls of the proved fan keeper: a trace text in and a report out, or events in and outcomes, a register image,
//! a panel, the reasons or the ages of the fans out; a trace text read and written again; its first wrong line; and who
//! pulled an alert line that several keepers share.

use std::fmt;

mod ages;
mod panel;
mod reasons;

pub use ages::{ages, Ages};
pub use panel::{panel, FanSpeed, Panel};
pub use reasons::{reasons, Reason, Why};

/// The longest trace text that is taken, in bytes.
pub const LONGEST_TEXT: usize = 65_536;

mod library {
    use super::AlertEntry;

    extern "C" {
        // How long the report is, or usize::MAX where text or buffer has the wrong size.
        pub fn snezhulka_replay(
            text: *const u8,
            text_len: usize,
            report: *mut u8,
            report_len: usize,
        ) -> usize;

        // How many bytes of outcomes there are, or usize::MAX where numbers or buffer have the wrong size.
        // The lengths count the numbers and the bytes.
        pub fn snezhulka_steps(
            numbers: *const i32,
            count: usize,
            outcomes: *mut u8,
            outcomes_len: usize,
        ) -> usize;

        // How many bytes of reasons there are, or usize::MAX as above.
        pub fn snezhulka_reasons(
            numbers: *const i32,
            count: usize,
            reasons: *mut u8,
            reasons_len: usize,
        ) -> usize;

        // How many numbers of stamps and ages there are, or usize::MAX as above. Both lengths count numbers.
        pub fn snezhulka_ages(
            numbers: *const i32,
            count: usize,
            ages: *mut u16,
            ages_len: usize,
        ) -> usize;

        // The reply number of the register image.
        pub fn snezhulka_image(
            numbers: *const i32,
            count: usize,
            image: *mut u8,
            image_len: usize,
        ) -> usize;

        // The reply number of the panel. The lengths count the numbers, the figures and the cases.
        pub fn snezhulka_panel(
            numbers: *const i32,
            count: usize,
            figures: *mut f64,
            figures_len: usize,
            cases: *mut u8,
            cases_len: usize,
        ) -> usize;

        // How many bytes of the text were written again.
        pub fn snezhulka_rewrite(
            text: *const u8,
            text_len: usize,
            copy: *mut u8,
            copy_len: usize,
        ) -> usize;

        // How long the first wrong line is, or usize::MAX where the buffer is too short for it.
        pub fn snezhulka_wrong_line(
            text: *const u8,
            text_len: usize,
            line: *mut u8,
            line_len: usize,
        ) -> usize;

        // The reply number of the search through a row; the address in `data` where that is 0.
        pub fn snezhulka_alert(row: *mut AlertEntry, count: usize, data: *mut u8) -> u8;
    }
}

/// The text is too long, or the buffer too short for what is to be put.
#[derive(Clone, Copy, Debug, PartialEq, Eq)]
pub struct WrongSize;

impl fmt::Display for WrongSize {
    fn fmt(&self, f: &mut fmt::Formatter<'_>) -> fmt::Result {
        f.write_str("the text is too long, or the buffer too short")
    }
}

impl std::error::Error for WrongSize {}

/// Replays `text` into `report` and gives the length of the report.
/// With `WrongSize` no byte of `report` has changed.
pub fn replay(text: &[u8], report: &mut [u8]) -> Result<usize, WrongSize> {
    // Safety: the pointers of slices are never null, each goes with its own length, and an exclusive
    // slice overlaps no other.
    let end = unsafe {
        library::snezhulka_replay(text.as_ptr(), text.len(), report.as_mut_ptr(), report.len())
    };
    if end == usize::MAX {
        Err(WrongSize)
    } else {
        Ok(end)
    }
}

/// The whole report of `text`, or `answer=11` and a newline where the text is too long.
pub fn report_of(text: &[u8]) -> Vec<u8> {
    // No report is longer than this.
    let mut report = vec![0; 3 * text.len().min(LONGEST_TEXT) + 26];
    match replay(text, &mut report) {
        Ok(end) => report.truncate(end),
        Err(WrongSize) => report = b"answer=11\n".to_vec(),
    }
    report
}

/// An event: its kind, from 0 (power) to 10 (diode) in the order of the trace format, who, arg and val.
pub type Event = [i32; 4];

/// What a report says of an event: answer, data, int, therm, fault, duty1, duty2. The answer is 0 or the number of the
/// refusal, 1 to 9 or 13: a sample of a channel whose diode is in error, which power and the event diode report.
pub type Outcome = [u8; 7];

/// Steps a keeper that never had power through `events` and puts their outcomes into `outcomes`.
/// Gives how many events were taken: all, or those before the first that has another kind.
/// With `WrongSize`, where there is less room than events, no outcome has changed.
pub fn steps(events: &[Event], outcomes: &mut [Outcome]) -> Result<usize, WrongSize> {
    let numbers = events.as_flattened();
    let bytes = outcomes.as_flattened_mut();
    // Safety: as in `replay`.
    let end = unsafe {
        library::snezhulka_steps(
            numbers.as_ptr(),
            numbers.len(),
            bytes.as_mut_ptr(),
            bytes.len(),
        )
    };
    if end == usize::MAX {
        Err(WrongSize)
    } else {
        Ok(end / 7)
    }
}

/// How many bytes of a buffer a register image takes.
pub const IMAGE_LENGTH: usize = 64;

/// Steps a keeper that never had power through `events` and puts its register image into `image`: at each place what a
/// read of that address would return. Gives the reply number: 0; 1 before the first accepted power; 10 where an event
/// has another kind; 11 where `image` is too short. But for 0 no byte of `image` has changed.
pub fn image(events: &[Event], image: &mut [u8]) -> u8 {
    let numbers = events.as_flattened();
    // Safety: as in `replay`.
    let number = unsafe {
        library::snezhulka_image(
            numbers.as_ptr(),
            numbers.len(),
            image.as_mut_ptr(),
            image.len(),
        )
    };
    number as u8
}

/// Reads the events of `text` and writes each of them again into `copy`, up to the first that is not well-formed or
/// does not fit. Gives how many bytes that are; they are the text's own, since an event has one text only.
pub fn rewrite(text: &[u8], copy: &mut [u8]) -> usize {
    // Safety: as in `replay`.
    unsafe { library::snezhulka_rewrite(text.as_ptr(), text.len(), copy.as_mut_ptr(), copy.len()) }
}

/// Puts the first wrong line of `text`, without its newline, into `line` and gives its length: 0 where no line is wrong,
/// or the wrong one is empty or missing. With `WrongSize` it is too long for `line`, no byte of which has changed.
pub fn wrong_line(text: &[u8], line: &mut [u8]) -> Result<usize, WrongSize> {
    // Safety: as in `replay`.
    let end = unsafe {
        library::snezhulka_wrong_line(text.as_ptr(), text.len(), line.as_mut_ptr(), line.len())
    };
    if end == usize::MAX {
        Err(WrongSize)
    } else {
        Ok(end)
    }
}

/// A keeper on a shared alert line: its address, 44 to 46, and whether it asserts the line.
#[repr(C)]
#[derive(Clone, Copy, Debug, PartialEq, Eq)]
pub struct AlertEntry {
    pub address: u8,
    pub asserting: bool,
}

/// Answers a read of the SMBus alert response address, 0x0C: gives the lowest address in `row` that asserts the line, and
/// its entry asserts no more; give that keeper the event alert. Or gives the reply number: 6 where an address is outside
/// 44 to 46; else 12 where no entry asserts, also where there is none, or two have one address, asserting or not. Then no
/// entry of `row` has changed.
pub fn alert(row: &mut [AlertEntry]) -> Result<u8, u8> {
    let mut address = 0;
    // Safety: as in `replay`; `address` is alive, and no part of the row.
    let number = unsafe { library::snezhulka_alert(row.as_mut_ptr(), row.len(), &mut address) };
    if number == 0 {
        Ok(address)
    } else {
        Err(number)
    }
}

#[cfg(test)]
mod tests;
