//! Lists of events with more than 65,536 accepted clocks, which no text has room for.

use crate::random::Random;
use snezhulka::Event;

/// The stamp is back where it was after so many.
const TURN: u64 = 65_536;

const POWER: Event = [0, 44, 0, 0];
const CLOCK: Event = [7, 0, 0, 0];
const RESET: Event = write(0x01, 0x80);
const BY_HAND: Event = write(0x00, 0x11);
const PIN_LOW: Event = [6, 0, 0, 0];
const PIN_HIGH: Event = [6, 0, 0, 1];

/// Events that start and stop no fan which is set by hand; some are refused.
const BETWEEN: [Event; 14] = [
    [7, 1, 0, 0],
    [7, 0, -1, 0],
    [7, 0, 0, 1],
    [8, 1, 0, 0],
    [8, 2, 0, 0],
    [3, 44, 0, 0],
    [0, 47, 0, 0],
    [1, 45, 0x01, 0x80],
    [5, 1, 0, 255],
    [5, 2, 0, 255],
    write(0x22, 0x55),
    write(0x22, 0xa8),
    PIN_LOW,
    PIN_HIGH,
];

/// Events that may start or stop one.
const OTHERS: [Event; 14] = [
    write(0x01, 0x7c),
    write(0x01, 0x7d),
    write(0x01, 0x7e),
    write(0x01, 0x7f),
    write(0x01, 0x7f),
    BY_HAND,
    BY_HAND,
    write(0x00, 0x91),
    write(0x22, 0x05),
    [4, 1, 0, 500],
    [4, 2, 0, 100],
    [10, 1, 0, 1],
    [10, 1, 0, 0],
    RESET,
];

const fn write(register: i32, byte: i32) -> Event {
    [1, 44, register, byte]
}

/// A list as it grows, and how many of its clock events are accepted.
struct List {
    random: Random,
    events: Vec<Event>,
    clocks: u64,
}

/// The lists of this seed.
pub fn lists(seed: u64) -> Vec<Vec<Event>> {
    let lists = [through_a_turn, more_than_a_turn, about_two_turns, any_order];
    let one = |(index, grow): (u64, fn(&mut List))| {
        let mut list = List {
            random: Random::new(!seed, index),
            events: vec![POWER, write(0x10, 100), write(0x11, 100), write(0x23, 0x03)],
            clocks: 0,
        };
        grow(&mut list);
        list.events
    };
    (0..).zip(lists).map(one).collect()
}

/// Both fans run as the stamp goes back to 0 and stop or start thereafter, before their ages do.
fn through_a_turn(list: &mut List) {
    list.add(&[write(0x01, 0x7c), BY_HAND]);
    let first = list.clocks(100, 500);
    list.run(true, false);
    list.clocks(100, 500);
    list.run(true, true);
    list.clocks_to(TURN);
    list.clocks(0, first as i32 - 20);
    list.run(false, true);
    list.clocks(1, 5);
    list.run(true, false);
    list.clocks(1, 5);
}

/// Both fans are older than a turn, and stop, start, are reset and powered.
fn more_than_a_turn(list: &mut List) {
    list.add(&[write(0x01, 0x7d), BY_HAND]);
    list.clocks(1, 300);
    list.run(true, true);
    list.clocks_to(TURN + 300);
    list.clocks(1, 300);
    list.run(false, false);
    list.clocks(1, 50);
    list.run(true, true);
    list.clocks(1, 50);
    list.add(&[RESET]);
    list.clocks(1, 50);
    list.add(&[POWER]);
    list.clocks(1, 50);
}

/// Starts and resets at the stamps 65,535 and 0.
fn about_two_turns(list: &mut List) {
    list.add(&[write(0x01, 0x7c), BY_HAND]);
    list.clocks_to(TURN - 1);
    list.run(true, false);
    list.clocks(1, 1);
    list.run(true, true);
    list.clocks(1, 300);
    list.add(&[PIN_LOW, RESET]);
    list.clocks(1, 300);
    list.add(&[PIN_HIGH, BY_HAND]);
    list.clocks_to(2 * TURN - 1);
    list.add(&[RESET]);
    list.clocks(1, 1);
    list.add(&[BY_HAND]);
    list.clocks(1, 300);
}

fn any_order(list: &mut List) {
    while list.clocks < 2 * TURN {
        list.clocks(0, 300);
        let event = list.random.pick(&OTHERS);
        list.add(&[event]);
        // Another power would begin a turn anew.
        if list.clocks < 2_000 && list.random.percent(5) {
            list.add(&[POWER]);
            list.clocks = 0;
        }
    }
}

impl List {
    fn add(&mut self, events: &[Event]) {
        self.events.extend_from_slice(events);
    }

    /// Enables the outputs, or disables them.
    fn run(&mut self, first: bool, second: bool) {
        let outputs = i32::from(first) | (i32::from(second) << 1);
        self.add(&[write(0x01, 0x7c | outputs)]);
    }

    /// Clock events until there are so many; now and then an event between them.
    fn clocks_to(&mut self, end: u64) {
        while self.clocks < end {
            if self.random.percent(1) {
                let event = self.random.pick(&BETWEEN);
                self.add(&[event]);
            }
            self.add(&[CLOCK]);
            self.clocks += 1;
        }
    }

    /// So many more; gives how many there are.
    fn clocks(&mut self, least: i32, most: i32) -> u64 {
        let more = self.random.between(least, most);
        self.clocks_to(self.clocks + more as u64);
        self.clocks
    }
}
