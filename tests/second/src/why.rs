//! T-03 and T-07: why the fans run as they do after the last event of a trace, in words, and since when.

use crate::keeper::{Keeper, Reason};
use crate::text::{events, LONGEST};

/// Four lines, the reason of each fan and then the age of each; where that is refused, only the answer.
pub fn why(text: &[u8]) -> Vec<u8> {
    let told = match lines(text) {
        Ok(lines) => lines,
        Err(number) => format!("answer={number}\n"),
    };
    told.into_bytes()
}

// the length is judged before any line, and every line before the first event
fn lines(text: &[u8]) -> Result<String, u8> {
    if text.len() > LONGEST {
        return Err(11);
    }
    let events = events(text).ok_or(10)?;
    let mut keeper = Keeper::new();
    for e in events {
        keeper.take(e);
    }
    let (first, second) = (keeper.why(1)?, keeper.why(2)?);
    let reasons = format!("reason1={}\nreason2={}\n", words(first), words(second));
    Ok(reasons + &ages(&keeper))
}

// in clock events, of a fan at duty 0 too
fn ages(keeper: &Keeper) -> String {
    let [first, second] = [keeper.age(0), keeper.age(1)];
    format!("age1={first}\nage2={second}\n")
}

fn words(reason: Reason) -> String {
    match reason {
        Reason::Disabled => "disabled".to_string(),
        Reason::PinLow => "pin".to_string(),
        Reason::Latched(channel) => format!("therm {channel}"),
        Reason::ZeroTarget => "zero".to_string(),
        Reason::SpinUp(clocks) => format!("spin {clocks}"),
        Reason::Ramp { to_go, target } if to_go > 0 => format!("ramp {to_go} up {target}"),
        Reason::Ramp { to_go, target } => format!("ramp {} down {target}", -to_go),
        Reason::Manual => "manual".to_string(),
        Reason::Demand(channel) => format!("demand {channel}"),
    }
}
