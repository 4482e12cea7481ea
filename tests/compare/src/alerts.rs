//! What alerts meet of T-02, and the events after one that has let INT go, seen by the registers of the second program.

use crate::events::second_event;
use second::keeper::{Keeper, Reply};
use snezhulka::{Event, IMAGE_LENGTH};

const POWER: i32 = 0;
const WRITE: i32 = 1;
const POINT: i32 = 2;
const READ: i32 = 3;
const SAMPLE: i32 = 4;
const ALERT: i32 = 9;

/// What an alert may meet, or an event while INT is let go.
pub const CASES: [&str; 12] = [
    "alert, INT asserted",
    "alert, INT not asserted",
    "alert, INT let go before",
    "alert, answer=1",
    "alert, answer=2",
    "alert, answer=6",
    "let go, INT back by a rise",
    "let go, a bit set again",
    "let go, INT enabled",
    "let go, a channel enabled",
    "let go, reset",
    "let go, power",
];

/// Which of the cases an event meets.
type Met = [bool; CASES.len()];

/// The second program's keeper, its address, whether it shows INT, and whether an alert has let INT go.
pub struct Alerts {
    keeper: Keeper,
    address: i32,
    asserted: bool,
    let_go: bool,
}

impl Alerts {
    /// Before the first event.
    pub fn none() -> Alerts {
        Alerts {
            keeper: Keeper::new(),
            address: 0,
            asserted: false,
            let_go: false,
        }
    }

    /// Takes an event; gives the cases that it meets, nothing where it is no alert and INT is not let go.
    pub fn take(&mut self, event: &Event) -> Option<Met> {
        let watched = self.let_go || event[0] == ALERT;
        let before = watched.then(|| self.keeper.clone());
        let asserted = self.asserted;
        let reply = self.keeper.take(second_event(event));
        if event[0] == POWER && reply.answer == 0 {
            self.address = event[1];
        }
        self.asserted = reply.int;
        before.map(|before| self.met(event, reply, &before, asserted))
    }

    fn met(&mut self, event: &Event, reply: Reply, before: &Keeper, asserted: bool) -> Met {
        let (old, new) = (registers(before), registers(&self.keeper));
        let risen = |register: usize, bits: u8| new[register] & !old[register] & bits != 0;
        let alert = |answer| event[0] == ALERT && reply.answer == answer;
        let power = event[0] == POWER && reply.answer == 0;
        let reset = is_reset(event) && reply.answer == 0;
        let rises = risen(0x02, 0xff) || risen(0x03, 0xff);
        let was = self.let_go;
        self.let_go = !(power || reset || rises) && (was || (alert(0) && asserted));
        // INT would be asserted but for the alert.
        let due = new[0x00] & 0x02 != 0 && (new[0x02] | new[0x03]) & 0xdf != 0;
        let stays = was && self.let_go && due;
        [
            alert(0) && asserted,
            alert(0) && !asserted && !was,
            alert(0) && was,
            alert(1),
            alert(2),
            alert(6),
            was && rises && reply.int,
            stays && event[0] == SAMPLE && self.sets_again(event, before),
            stays && risen(0x00, 0x02),
            stays && risen(0x01, 0x70),
            was && reset,
            was && power,
        ]
    }

    /// Whether an event sets a bit that is 1: it would rise, had the status been read just before.
    fn sets_again(&self, event: &Event, before: &Keeper) -> bool {
        let mut read = before.clone();
        for register in [0x02, 0x03] {
            read.take(second_event(&[POINT, self.address, register, 0]));
            read.take(second_event(&[READ, self.address, 0, 0]));
        }
        let old = registers(&read);
        read.take(second_event(event));
        let new = registers(&read);
        new[0x02] & !old[0x02] != 0 || new[0x03] & !old[0x03] != 0
    }
}

/// Whether an event is a software reset, if it is done.
pub fn is_reset(&[kind, _, register, byte]: &Event) -> bool {
    kind == WRITE && register == 0x01 && byte & 0x80 != 0
}

/// The register image, 0 before power.
pub fn registers(keeper: &Keeper) -> [u8; IMAGE_LENGTH] {
    let mut image = [0; IMAGE_LENGTH];
    keeper.image(&mut image);
    image
}

#[cfg(test)]
mod tests {
    use super::Alerts;

    const HOT: [i32; 4] = [4, 0, 0, 488];
    const OWN: [i32; 4] = [9, 44, 0, 0];

    /// The cases, as numbers, of each event after power, INT enabled, and a local sample above its high limit.
    fn met(events: &[[i32; 4]]) -> Vec<Vec<usize>> {
        let mut alerts = Alerts::none();
        for event in [[0, 44, 0, 0], [1, 44, 0x00, 0x93], HOT] {
            assert_eq!(alerts.take(&event), None);
        }
        let cases = |event| {
            let met = alerts.take(event).unwrap_or_default();
            (0..met.len()).filter(|&case| met[case]).collect()
        };
        events.iter().map(cases).collect()
    }

    #[test]
    fn an_alert_by_what_int_is_and_by_its_reply() {
        let disabled = [1, 44, 0x00, 0x91];
        assert_eq!(met(&[OWN, OWN]), [[0], [2]]);
        assert_eq!(met(&[disabled, OWN]), [vec![], vec![1]]);
        assert_eq!(met(&[[9, 45, 0, 0], [9, 44, 1, 0]]), [[4], [5]]);
        let before_power = Alerts::none().take(&OWN).expect("it is an alert");
        assert!(before_power[3]);
    }

    #[test]
    fn a_bit_rises_or_is_set_again() {
        let (point, read) = ([2, 44, 0x02, 0], [3, 44, 0, 0]);
        assert_eq!(met(&[OWN, HOT]), [[0], [7]]);
        let read_away = met(&[OWN, point, read, HOT, OWN]);
        assert_eq!(read_away, [vec![0], vec![], vec![], vec![6], vec![0]]);
        assert_eq!(met(&[OWN, [4, 1, 0, 0]]), [vec![0], vec![]]);
    }

    #[test]
    fn a_bit_enabled_or_all_started_afresh() {
        let (off, on) = ([1, 44, 0x00, 0x91], [1, 44, 0x00, 0x93]);
        assert_eq!(met(&[OWN, off, on]), [vec![0], vec![], vec![8]]);
        let (off, on) = ([1, 44, 0x01, 0x5f], [1, 44, 0x01, 0x7f]);
        assert_eq!(met(&[OWN, off, on]), [vec![0], vec![], vec![9]]);
        assert_eq!(met(&[OWN, [1, 44, 0x01, 0x80]]), [[0], [10]]);
        assert_eq!(met(&[OWN, [0, 45, 0, 0]]), [[0], [11]]);
    }
}
