use super::{reasons, Reason, Why};
use crate::{library, Event};

const POWER: Event = [0, 44, 0, 0];
const CLOCK: Event = [7, 0, 0, 0];

fn write(register: i32, byte: i32) -> Event {
    [1, 44, register, byte]
}

// The reasons after the last of some events, each an accepted one after power.
fn last(events: &[Event]) -> [Why; 2] {
    let events = [&[POWER], events].concat();
    let whys = reasons(&events);
    assert_eq!(whys.len(), events.len());
    whys[whys.len() - 1]
}

#[test]
fn every_reason_has_its_numbers() {
    let (monitored, manual) = (write(0x00, 0x91), write(0x00, 0x11));
    let zero = Ok(Reason::NoTarget);
    assert_eq!(last(&[]), [zero; 2]);
    assert_eq!(last(&[write(0x01, 0x7e)]), [Ok(Reason::Disabled), zero]);
    assert_eq!(last(&[[6, 0, 0, 0]]), [Ok(Reason::PinLow); 2]);
    assert_eq!(
        last(&[monitored, [4, 2, 0, 801]]),
        [Ok(Reason::Therm(2)); 2]
    );
    assert_eq!(last(&[manual, CLOCK]), [Ok(Reason::SpinUp(19)); 2]);
    let short = [write(0x20, 0), write(0x21, 0)];
    let spun = [&short[..], &[manual, CLOCK, CLOCK]].concat();
    assert_eq!(last(&spun), [Ok(Reason::Manual); 2]);
    let hot = [&short[..], &[monitored, [4, 1, 0, 400], CLOCK, CLOCK]].concat();
    assert_eq!(last(&hot), [Ok(Reason::Demand(1)), zero]);
    let broken = [&short[..], &[[10, 2, 0, 1], CLOCK, CLOCK]].concat();
    assert_eq!(last(&broken), [zero, Ok(Reason::Demand(2))]);
}

#[test]
fn a_ramp_goes_up_or_down_to_its_target() {
    let (short, manual) = ([write(0x20, 0), write(0x21, 0)], write(0x00, 0x11));
    let events = [&short[..], &[manual, CLOCK, CLOCK, write(0x23, 0x03)]].concat();
    let ramp = |left, up, target| Ok(Reason::Ramp { left, up, target });
    let faster = [&events[..], &[write(0x22, 0x4f)]].concat();
    assert_eq!(last(&faster), [ramp(160, true, 240), ramp(16, false, 64)]);
}

#[test]
fn no_reason_before_power_and_none_moved_by_a_refused_event() {
    let whys = reasons(&[CLOCK, [0, 47, 0, 0], POWER, [8, 3, 0, 0]]);
    let zero = Ok(Reason::NoTarget);
    assert_eq!(whys, [[Err(1); 2], [Err(1); 2], [zero; 2], [zero; 2]]);
}

#[test]
fn reasons_end_where_a_kind_is_none() {
    for kind in [-1, 11, i32::MIN, i32::MAX] {
        let whys = reasons(&[POWER, CLOCK, [kind, 0, 0, 0], CLOCK]);
        assert_eq!(whys, [[Ok(Reason::NoTarget); 2]; 2], "kind {kind}");
    }
    assert!(reasons(&[]).is_empty());
}

#[test]
fn a_buffer_of_the_wrong_size_stays_as_it_was() {
    let numbers = [POWER, CLOCK];
    let numbers = numbers.as_flattened();
    for (count, length) in [(8, 15), (8, 0), (7, 16), (5, 16), (1, 16)] {
        let mut bytes = vec![0xaa; length];
        // Safety: the lengths are those of the slices, or shorter, and the slices don't overlap.
        let end = unsafe {
            library::snezhulka_reasons(numbers.as_ptr(), count, bytes.as_mut_ptr(), length)
        };
        assert_eq!(end, usize::MAX, "{count} numbers, {length} bytes");
        assert!(bytes.iter().all(|&byte| byte == 0xaa));
    }
}

#[test]
fn bytes_after_the_reasons_stay() {
    let mut bytes = [0xaa; 11];
    // Safety: both slices are alive, each goes with its own length, and they don't overlap.
    let end =
        unsafe { library::snezhulka_reasons(POWER.as_ptr(), 4, bytes.as_mut_ptr(), bytes.len()) };
    assert_eq!(end, 8);
    assert_eq!(bytes, [4, 0, 0, 0, 4, 0, 0, 0, 0xaa, 0xaa, 0xaa]);
}
