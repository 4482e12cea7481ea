//! Since when the fans run as they do.

use super::{library, Event};

/// The stamp and the ages of the fans. They count clock events, a tenth of a second each, modulo 65,536; refused ones do
/// not count. All are 0 before the first accepted power.
#[derive(Clone, Copy, Debug, PartialEq, Eq)]
pub struct Ages {
    /// Those since power. A software reset keeps it.
    pub stamp: u16,
    /// Of fan 1 and fan 2: those since its duty last went from 0 to more, or since a later power or software reset. It is
    /// the true count while fewer than 65,536 have passed, 1 h 49 min 13.6 s, and goes on at duty 0.
    pub age: [u16; 2],
}

/// Steps a keeper that never had power through `events` and gives, for each of them, the stamp and the ages of fan 1 and
/// fan 2 after it. The events end before the first that has another kind.
///
/// ```
/// use snezhulka::{ages, Ages};
///
/// // Power with the diode of remote 1 in error, which starts fan 1; two clocks; THERM pulled low, which starts fan 2.
/// let (clock, low) = ([7, 0, 0, 0], [6, 0, 0, 0]);
/// let told = ages(&[[0, 44, 1, 0], clock, clock, low, clock]);
/// let last = Ages { stamp: 3, age: [3, 1] };
/// assert_eq!(told.last(), Some(&last));
/// ```
pub fn ages(events: &[Event]) -> Vec<Ages> {
    let numbers = events.as_flattened();
    let mut given = vec![[0; 3]; events.len()];
    let places = given.as_flattened_mut();
    // Safety: as in `replay`.
    let end = unsafe {
        library::snezhulka_ages(
            numbers.as_ptr(),
            numbers.len(),
            places.as_mut_ptr(),
            places.len(),
        )
    };
    assert_ne!(end, usize::MAX, "there is room for all");
    given.truncate(end / 3);
    let of_event = |[stamp, one, two]: [u16; 3]| Ages {
        stamp,
        age: [one, two],
    };
    given.into_iter().map(of_event).collect()
}

#[cfg(test)]
mod tests;
