//! The wheelhouse panel: degrees and revolutions.

use super::{library, Event};

/// What is known of the speed of a fan, by its count as register 0x08 or 0x09 has it.
#[derive(Clone, Copy, Debug, PartialEq)]
pub enum FanSpeed {
    /// The count is 0.
    NotMeasured,
    /// The count is 255.
    Stalled,
    /// In revolutions a minute: the f64 nearest to 675,000 over the product of the count and the fan's range, 1, 2, 4 or
    /// 8 by bits 7:6 of 0x20 or 0x21.
    Speed(f64),
}

/// Temperatures and fan speeds.
///
/// A temperature is in degrees, exactly: that of the last sample with its offset, also while the diode of the channel is
/// in error; 0.0 where there was no sample since the last power or reset.
#[derive(Clone, Copy, Debug, PartialEq)]
pub struct Panel {
    pub local: f64,
    pub remote1: f64,
    pub remote2: f64,
    pub fan1: FanSpeed,
    pub fan2: FanSpeed,
}

/// Steps a keeper that never had power through `events` and gives its panel. Or gives the reply number: 10 where an event
/// has another kind; else 1 before the first accepted power.
///
/// ```
/// use snezhulka::{panel, FanSpeed};
///
/// // Power; monitoring on; remote 1 at 161 eighths of a degree; fan 1 with a count of 100.
/// let events = [[0, 44, 0, 0], [1, 44, 0x00, 0x91], [4, 1, 0, 161], [5, 1, 0, 100]];
/// let shown = panel(&events).expect("there is power");
/// assert_eq!(shown.remote1, 20.125);
/// assert_eq!(shown.fan1, FanSpeed::Speed(3375.0));
/// assert_eq!(shown.fan2, FanSpeed::NotMeasured);
///
/// assert_eq!(panel(&events[1..]), Err(1));
/// ```
pub fn panel(events: &[Event]) -> Result<Panel, u8> {
    let numbers = events.as_flattened();
    let (mut figures, mut cases) = ([0.0; 5], [0; 2]);
    // Safety: as in `replay`.
    let number = unsafe {
        library::snezhulka_panel(
            numbers.as_ptr(),
            numbers.len(),
            figures.as_mut_ptr(),
            figures.len(),
            cases.as_mut_ptr(),
            cases.len(),
        )
    };
    if number != 0 {
        return Err(number as u8);
    }
    let [local, remote1, remote2, speed1, speed2] = figures;
    Ok(Panel {
        local,
        remote1,
        remote2,
        fan1: speed_of(cases[0], speed1),
        fan2: speed_of(cases[1], speed2),
    })
}

/// The case of a fan and its figure.
fn speed_of(case: u8, figure: f64) -> FanSpeed {
    match case {
        0 => FanSpeed::NotMeasured,
        1 => FanSpeed::Stalled,
        2 => FanSpeed::Speed(figure),
        _ => unreachable!("the library gives no other case"),
    }
}

#[cfg(test)]
mod tests;
