//! Why the fans run as they do.

use super::{library, Event};

/// Why a fan has its duty: the first of these that holds. A channel is 0 for local, 1 or 2.
#[derive(Clone, Copy, Debug, PartialEq, Eq)]
pub enum Reason {
    /// Its output is disabled in 0x01.
    Disabled,
    /// The THERM pin is pulled low from outside.
    PinLow,
    /// A THERM latch is on, and bit 7 of 0x3F is 1: the lowest channel whose latch is on, assigned to the fan or not.
    Therm(u8),
    /// Its target is 0.
    NoTarget,
    /// It is spinning up: so many clock events are left.
    SpinUp(u8),
    /// Its filter is on, and its duty is so many slots away from the target: below it where it goes up.
    Ramp { left: u8, up: bool, target: u8 },
    /// The manual setting.
    Manual,
    /// The demand of a channel: the lowest-numbered one assigned to the fan that has the largest demand. One whose diode
    /// is in error demands 240 slots.
    Demand(u8),
}

/// A reason, or the reply number: 1 before the first accepted power.
pub type Why = Result<Reason, u8>;

/// Steps a keeper that never had power through `events` and gives, for each of them, why fan 1 and fan 2 run as they do
/// after it. The events end before the first that has another kind.
pub fn reasons(events: &[Event]) -> Vec<[Why; 2]> {
    let numbers = events.as_flattened();
    let mut given = vec![[[0; 4]; 2]; events.len()];
    let bytes = given.as_flattened_mut().as_flattened_mut();
    // Safety: as in `replay`.
    let end = unsafe {
        library::snezhulka_reasons(
            numbers.as_ptr(),
            numbers.len(),
            bytes.as_mut_ptr(),
            bytes.len(),
        )
    };
    assert_ne!(end, usize::MAX, "there is room for all");
    given.truncate(end / 8);
    given.into_iter().map(|fans| fans.map(why_of)).collect()
}

/// The four bytes of a fan: the number of its reason, and that reason's values.
fn why_of([number, first, second, third]: [u8; 4]) -> Why {
    Ok(match number {
        0 => return Err(first),
        1 => Reason::Disabled,
        2 => Reason::PinLow,
        3 => Reason::Therm(first),
        4 => Reason::NoTarget,
        5 => Reason::SpinUp(first),
        6 => Reason::Ramp {
            left: first,
            up: second == 1,
            target: third,
        },
        7 => Reason::Manual,
        8 => Reason::Demand(first),
        _ => unreachable!("the library gives no other number"),
    })
}

#[cfg(test)]
mod tests;
