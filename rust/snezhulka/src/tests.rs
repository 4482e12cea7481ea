use super::{
    alert, image, library, replay, report_of, rewrite, steps, wrong_line, AlertEntry, Event,
    WrongSize, IMAGE_LENGTH, LONGEST_TEXT,
};

// Power, a clock event and a write to a foreign address.
const EXAMPLE: &[u8] = b"kind=power\nwho=44\narg=0\nval=0\n\
kind=clock\nwho=0\narg=0\nval=0\n\
kind=write\nwho=45\narg=0\nval=0\n";

const EXAMPLE_REPORT: &[u8] = b"answer=0\ndata=0\nint=0\ntherm=0\nfault=0\nduty1=0\nduty2=0\n\
answer=0\ndata=0\nint=0\ntherm=0\nfault=0\nduty1=0\nduty2=0\n\
answer=2\ndata=0\nint=0\ntherm=0\nfault=0\nduty1=0\nduty2=0\n";

#[test]
fn worked_example() {
    assert_eq!(report_of(EXAMPLE), EXAMPLE_REPORT);
}

#[test]
fn bytes_after_the_report_stay() {
    let mut buffer = [0xaa; 400];
    assert_eq!(replay(EXAMPLE, &mut buffer), Ok(EXAMPLE_REPORT.len()));
    assert_eq!(&buffer[..EXAMPLE_REPORT.len()], EXAMPLE_REPORT);
    assert!(buffer[EXAMPLE_REPORT.len()..]
        .iter()
        .all(|&byte| byte == 0xaa));
}

#[test]
fn a_short_buffer_stays_as_it_was() {
    for length in 0..EXAMPLE_REPORT.len() {
        let mut buffer = vec![0xaa; length];
        assert_eq!(
            replay(EXAMPLE, &mut buffer),
            Err(WrongSize),
            "length {length}"
        );
        assert!(buffer.iter().all(|&byte| byte == 0xaa), "length {length}");
    }
}

#[test]
fn a_buffer_of_the_very_length_is_enough() {
    let mut buffer = vec![0xaa; EXAMPLE_REPORT.len()];
    assert_eq!(replay(EXAMPLE, &mut buffer), Ok(EXAMPLE_REPORT.len()));
    assert_eq!(buffer, EXAMPLE_REPORT);
}

#[test]
fn empty_text_gives_an_empty_report() {
    assert_eq!(replay(b"", &mut []), Ok(0));
    assert_eq!(report_of(b""), b"");
}

#[test]
fn a_wrong_line_ends_the_report() {
    assert_eq!(report_of(b"kind=power\nwho=044\n"), b"answer=10\nline=2\n");
    let mut cut = EXAMPLE.to_vec();
    cut.pop();
    let mut expected = EXAMPLE_REPORT[..EXAMPLE_REPORT.len() * 2 / 3].to_vec();
    expected.extend_from_slice(b"answer=10\nline=12\n");
    assert_eq!(report_of(&cut), expected);
}

#[test]
fn one_byte_too_many() {
    assert_eq!(
        report_of(&vec![b'\n'; LONGEST_TEXT]),
        b"answer=10\nline=1\n"
    );
    assert_eq!(report_of(&vec![b'\n'; LONGEST_TEXT + 1]), b"answer=11\n");
    let mut buffer = [0xaa; 100];
    assert_eq!(
        replay(&vec![b'\n'; LONGEST_TEXT + 1], &mut buffer),
        Err(WrongSize)
    );
    assert_eq!(buffer, [0xaa; 100]);
}

// The same three events, as numbers.
const EVENTS: [Event; 3] = [[0, 44, 0, 0], [7, 0, 0, 0], [1, 45, 0, 0]];

#[test]
fn worked_example_in_numbers() {
    let mut outcomes = [[0xaa; 7]; 4];
    assert_eq!(steps(&EVENTS, &mut outcomes), Ok(3));
    assert_eq!(outcomes, [[0; 7], [0; 7], [2, 0, 0, 0, 0, 0, 0], [0xaa; 7]]);
}

#[test]
fn outcomes_without_room_for_all_stay_as_they_were() {
    for room in 0..3 {
        let mut outcomes = vec![[0xaa; 7]; room];
        assert_eq!(steps(&EVENTS, &mut outcomes), Err(WrongSize), "room {room}");
        assert_eq!(outcomes, vec![[0xaa; 7]; room]);
    }
    assert_eq!(steps(&[], &mut []), Ok(0));
}

#[test]
fn numbers_that_are_no_whole_event_are_refused() {
    let numbers = EVENTS.as_flattened();
    for cut in 1..4 {
        let mut bytes = [0xaa; 21];
        let count = numbers.len() - cut;
        // Safety: the lengths are those of the slices, and shorter.
        let end = unsafe {
            super::library::snezhulka_steps(
                numbers.as_ptr(),
                count,
                bytes.as_mut_ptr(),
                bytes.len(),
            )
        };
        assert_eq!((end, bytes), (usize::MAX, [0xaa; 21]), "{count} numbers");
    }
}

#[test]
fn steps_end_where_a_kind_is_none() {
    for kind in [-1, 11, i32::MIN, i32::MAX] {
        let mut events = EVENTS;
        events[1][0] = kind;
        let mut outcomes = [[0xaa; 7]; 3];
        assert_eq!(steps(&events, &mut outcomes), Ok(1), "kind {kind}");
        assert_eq!(outcomes, [[0; 7], [0xaa; 7], [0xaa; 7]], "kind {kind}");
    }
}

#[test]
fn every_number_is_passed_whole() {
    let mut outcomes = [[0; 7]; 2];
    for (val, answer) in [
        (-1024, 9),
        (-1025, 6),
        (i32::MIN, 6),
        (1023, 9),
        (i32::MAX, 6),
    ] {
        let events = [EVENTS[0], [4, 1, 0, val]];
        assert_eq!(steps(&events, &mut outcomes), Ok(2));
        assert_eq!(outcomes[1][0], answer, "val {val}");
    }
}

const POWER: Event = [0, 44, 0, 0];

#[test]
fn image_after_power_has_the_reset_bytes() {
    let mut buffer = [0xaa; IMAGE_LENGTH + 3];
    assert_eq!(image(&[POWER], &mut buffer), 0);
    assert_eq!(buffer[..2], [0x90, 0x7f]);
    assert_eq!(buffer[0x3d..0x40], [0x31, 0x41, 0x80]);
    assert_eq!(buffer[0x30], 0);
    assert_eq!(buffer[IMAGE_LENGTH..], [0xaa; 3]);
}

#[test]
fn image_that_is_refused_leaves_the_buffer() {
    let foreign: Event = [11, 0, 0, 0];
    let cases: [(&[Event], usize, u8); 4] = [
        (&[], IMAGE_LENGTH, 1),
        (&[], IMAGE_LENGTH - 1, 1),
        (&[POWER, foreign], IMAGE_LENGTH, 10),
        (&[POWER], IMAGE_LENGTH - 1, 11),
    ];
    for (events, length, number) in cases {
        let mut buffer = vec![0xaa; length];
        assert_eq!(image(events, &mut buffer), number);
        assert!(buffer.iter().all(|&byte| byte == 0xaa));
    }
}

#[test]
fn image_of_numbers_that_are_no_whole_events() {
    let numbers = [0, 44, 0, 0, 7];
    let mut buffer = [0xaa; IMAGE_LENGTH];
    // Safety: both slices are alive, each goes with its own length, and they don't overlap.
    let number = unsafe {
        library::snezhulka_image(
            numbers.as_ptr(),
            numbers.len(),
            buffer.as_mut_ptr(),
            buffer.len(),
        )
    };
    assert_eq!(number, 11);
    assert_eq!(buffer, [0xaa; IMAGE_LENGTH]);
}

#[test]
fn right_text_is_written_again_as_it_was() {
    let mut copy = [0xaa; 200];
    assert_eq!(rewrite(EXAMPLE, &mut copy), EXAMPLE.len());
    assert_eq!(&copy[..EXAMPLE.len()], EXAMPLE);
    assert!(copy[EXAMPLE.len()..].iter().all(|&byte| byte == 0xaa));
}

#[test]
fn text_is_written_again_up_to_what_is_wrong_or_does_not_fit() {
    let first = b"kind=power\nwho=44\narg=0\nval=0\n".len();
    let mut damaged = EXAMPLE.to_vec();
    damaged[first + 1] = b'x';
    let mut copy = [0xaa; 200];
    assert_eq!(rewrite(&damaged, &mut copy), first);
    assert_eq!(&copy[..first], &EXAMPLE[..first]);
    assert_eq!(copy[first], 0xaa);
    let mut short = vec![0xaa; first + 10];
    assert_eq!(rewrite(EXAMPLE, &mut short), first);
    assert_eq!(&short[..first], &EXAMPLE[..first]);
    assert!(short[first..].iter().all(|&byte| byte == 0xaa));
}

#[test]
fn the_first_wrong_line_is_handed_back() {
    let mut damaged = EXAMPLE.to_vec();
    damaged[b"kind=power\nwho=44\narg=0\nval=0\nk".len()] = b'x';
    let mut line = [0xaa; 20];
    assert_eq!(wrong_line(&damaged, &mut line), Ok(10));
    assert_eq!(&line[..10], b"kxnd=clock");
    assert!(line[10..].iter().all(|&byte| byte == 0xaa));
}

#[test]
fn no_line_of_a_right_text_is_wrong_and_a_missing_one_is_empty() {
    let mut line = [0xaa; 20];
    assert_eq!(wrong_line(EXAMPLE, &mut line), Ok(0));
    assert_eq!(wrong_line(b"kind=power\nwho=44\n", &mut line), Ok(0));
    assert_eq!(line, [0xaa; 20]);
}

#[test]
fn a_wrong_line_that_does_not_fit_leaves_the_buffer() {
    let mut line = [0xaa; 5];
    assert_eq!(wrong_line(b"kind=x", &mut line), Err(WrongSize));
    assert_eq!(line, [0xaa; 5]);
    assert_eq!(wrong_line(b"kind=", &mut line), Ok(5));
    assert_eq!(&line, b"kind=");
}

// A row of addresses, each with whether it asserts.
fn row_of<const N: usize>(entries: [(u8, bool); N]) -> [AlertEntry; N] {
    entries.map(|(address, asserting)| AlertEntry { address, asserting })
}

#[test]
fn alerts_are_events() {
    // INT comes with the local high bit, goes with the alert and stays away while the bit is set again.
    let hot: Event = [4, 0, 0, 488];
    let own: Event = [9, 44, 0, 0];
    let events = [POWER, [1, 44, 0, 0x93], hot, [9, 45, 0, 0], own, hot, own];
    let mut outcomes = [[0xaa; 7]; 7];
    assert_eq!(steps(&events, &mut outcomes), Ok(7));
    let answers_and_int = outcomes.map(|outcome| (outcome[0], outcome[2]));
    assert_eq!(
        answers_and_int,
        [(0, 0), (0, 0), (0, 1), (2, 1), (0, 0), (0, 0), (0, 0)]
    );
}

#[test]
fn diodes_are_events() {
    // An error of remote 1 drives fan 1 in that very event, and its samples are refused until it is mended.
    let (found, mended): (Event, Event) = ([10, 1, 0, 1], [10, 1, 0, 0]);
    let sample: Event = [4, 1, 0, 168];
    let events = [
        found,
        POWER,
        [10, 0, 0, 1],
        [10, 1, 0, 2],
        found,
        sample,
        [1, 44, 0, 0x91],
        sample,
        mended,
        sample,
        [0, 44, 1, 0],
    ];
    let mut outcomes = [[0xaa; 7]; 11];
    assert_eq!(steps(&events, &mut outcomes), Ok(11));
    let answers = outcomes.map(|outcome| outcome[0]);
    assert_eq!(answers, [1, 0, 3, 6, 0, 9, 0, 13, 0, 0, 0]);
    let duties = outcomes.map(|outcome| outcome[5]);
    assert_eq!(duties, [0, 0, 0, 0, 240, 240, 240, 240, 0, 0, 240]);
    assert!(outcomes.iter().all(|outcome| outcome[6] == 0));
    let mut buffer = [0; IMAGE_LENGTH];
    assert_eq!(image(&events[..8], &mut buffer), 0);
    assert_eq!((buffer[0x02], buffer[0x03]), (0x20, 0));
    assert_eq!(image(&events[..9], &mut buffer), 0);
    assert_eq!((buffer[0x02], buffer[0x03]), (0, 0));
}

#[test]
fn the_lowest_address_that_asserts_is_let_go() {
    let mut row = row_of([(46, true), (44, false), (45, true)]);
    assert_eq!(alert(&mut row), Ok(45));
    assert_eq!(row, row_of([(46, true), (44, false), (45, false)]));
    assert_eq!(alert(&mut row), Ok(46));
    assert_eq!(row, row_of([(46, false), (44, false), (45, false)]));
    assert_eq!(alert(&mut row), Err(12));
}

#[test]
fn a_row_that_is_refused_stays_as_it_was() {
    let rows = [
        (row_of([(44, true), (43, false)]), 6),
        (row_of([(47, true), (47, true)]), 6),
        (row_of([(44, false), (45, false)]), 12),
        (row_of([(46, true), (46, false)]), 12),
    ];
    for (before, number) in rows {
        let mut row = before;
        assert_eq!(alert(&mut row), Err(number), "{before:?}");
        assert_eq!(row, before);
    }
    assert_eq!(alert(&mut []), Err(12));
}

#[test]
fn data_of_a_row_that_is_refused_stays_as_it_was() {
    let mut row = row_of([(44, true), (44, false)]);
    let mut data = 0xaa;
    // Safety: the row goes with its own length, and `data` is no part of it.
    let number = unsafe { library::snezhulka_alert(row.as_mut_ptr(), row.len(), &mut data) };
    assert_eq!((number, data), (12, 0xaa));
}
