//! T-03: the reason for a fan's present duty.

use super::replies::fan_exists;
use super::Keeper;
use crate::table::*;

/// What may account for a duty, with its numbers.
#[derive(Clone, Copy, PartialEq, Eq, Debug)]
pub enum Reason {
    Disabled,
    PinLow,
    Latched(usize),
    ZeroTarget,
    SpinUp(u8),                       // clock events that remain
    Ramp { to_go: i32, target: i32 }, // slots, below 0 where the duty is to fall
    Manual,
    Demand(usize),
}

impl Keeper {
    /// The reason of fan 1 or 2, or the number of the refusal.
    pub fn why(&self, fan: i32) -> Result<Reason, u8> {
        if !self.powered {
            return Err(1);
        }
        if !fan_exists(fan) {
            return Err(3);
        }
        // "The first of these that holds is given, and no other"
        let facts = self.facts(fan as usize - 1);
        Ok(facts
            .into_iter()
            .flatten()
            .next()
            .expect("some channel asks"))
    }

    /// What of the ticket's list holds, in its order. The last always does: some channel is assigned.
    pub fn facts(&self, fan: usize) -> [Option<Reason>; 8] {
        [
            (!self.output_enabled(fan)).then_some(Reason::Disabled),
            self.pin_low.then_some(Reason::PinLow),
            self.latch_that_overrides().map(Reason::Latched),
            (self.target(fan) == 0).then_some(Reason::ZeroTarget),
            self.clocks_to_go(fan),
            self.slots_to_go(fan),
            (!self.bit(CONFIG_1, 7)).then_some(Reason::Manual),
            self.first_to_ask(fan).map(Reason::Demand),
        ]
    }

    // "a THERM latch while the fan bit is set, with the lowest channel whose latch is on"
    fn latch_that_overrides(&self) -> Option<usize> {
        let lowest = self.latch.iter().position(|&on| on);
        lowest.filter(|_| self.bit(BEHAVIOR, 7))
    }

    fn clocks_to_go(&self, fan: usize) -> Option<Reason> {
        let clocks = self.spin_up[fan];
        (clocks > 0).then_some(Reason::SpinUp(clocks))
    }

    // an unfiltered duty is at its target, a filtered one may be
    fn slots_to_go(&self, fan: usize) -> Option<Reason> {
        let target = self.target(fan);
        let to_go = target - self.duty[fan];
        (self.filtered(fan) && to_go != 0).then_some(Reason::Ramp { to_go, target })
    }

    // "the lowest-numbered assigned one with the largest demand": of equals, min_by_key gives the first
    fn first_to_ask(&self, fan: usize) -> Option<usize> {
        let less_than_full = |&channel: &usize| 240 - self.demand(channel, fan);
        let assigned = self.assigned(fan).iter().copied();
        assigned.min_by_key(less_than_full)
    }
}
