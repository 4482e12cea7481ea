//! T-06: the panel after the last event of a trace, in whole tenths of a degree and whole revolutions a minute.

use crate::keeper::Keeper;
use crate::table::TICKS_A_MINUTE;
use crate::text::{events, LONGEST};

/// Five lines, one for each channel and fan; where that is refused, only the answer.
pub fn panel(text: &[u8]) -> Vec<u8> {
    let told = match keeper_after(text) {
        Ok(keeper) => lines(&keeper),
        Err(number) => format!("answer={number}\n"),
    };
    told.into_bytes()
}

// "11 and 10 before 1": the length before any line, every line before the first event
fn keeper_after(text: &[u8]) -> Result<Keeper, u8> {
    if text.len() > LONGEST {
        return Err(11);
    }
    let events = events(text).ok_or(10)?;
    let mut keeper = Keeper::new();
    for e in events {
        keeper.take(e);
    }
    keeper.panel().map(|_| keeper)
}

// worked out in whole numbers, so that no figure of the panel is rounded twice
fn lines(keeper: &Keeper) -> String {
    let [local, remote1, remote2] = [0, 1, 2].map(|channel| tenths(keeper.reading(channel)));
    let [fan1, fan2] = [0, 1].map(|fan| turns(keeper.count(fan), keeper.range_divisor(fan)));
    format!("local={local}\nremote1={remote1}\nremote2={remote2}\nfan1={fan1}\nfan2={fan2}\n")
}

// eighths of a degree in tenths, rounded down below 0 too
fn tenths(reading: i32) -> i32 {
    (10 * reading).div_euclid(8)
}

fn turns(count: i32, divisor: i32) -> String {
    match count {
        0 => "none".to_string(),
        255 => "stalled".to_string(),
        _ => (TICKS_A_MINUTE / (count * divisor)).to_string(),
    }
}
