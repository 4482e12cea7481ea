//! The search through a row of alert entries, beside the second program's: every short row, and some longer ones.

use crate::random::Random;
use second::row::{search, Entry};
use snezhulka::AlertEntry;

/// The reply numbers of a search.
pub const NUMBERS: [u8; 3] = [0, 6, 12];

/// The addresses of keepers and those beside them, and both ends of a byte.
const ADDRESSES: [u8; 7] = [0, 43, 44, 45, 46, 47, 255];

/// The most entries of the rows that are all taken.
const MOST_ENTRIES: usize = 4;

/// How many longer rows are taken, and how many of them have about as many entries as 16 bits can count.
const LONGER: u64 = 3_000;
const LONGEST: u64 = 30;

/// What data holds before a search.
const MARKER: u8 = 0xaa;

/// The most entries of a row that are printed.
const MOST_SHOWN: usize = 40;

type Row = Vec<AlertEntry>;

/// The reply number, and data and row after the search.
type Searched = (u8, u8, Row);

extern "C" {
    // The safe call hides what becomes of data where the row is refused.
    fn snezhulka_alert(row: *mut AlertEntry, count: usize, data: *mut u8) -> u8;
}

/// The proved search.
fn proved_search(row: &[AlertEntry]) -> Searched {
    let (mut row, mut data) = (row.to_vec(), MARKER);
    // Safety: the row goes with its own length, and data is no part of it.
    let number = unsafe { snezhulka_alert(row.as_mut_ptr(), row.len(), &mut data) };
    (number, data, row)
}

/// The proved search by the safe call.
fn safe_search(row: &[AlertEntry]) -> Searched {
    let mut row = row.to_vec();
    match snezhulka::alert(&mut row) {
        Ok(address) => (0, address, row),
        Err(number) => (number, MARKER, row),
    }
}

/// The second program's.
fn second_search(row: &[AlertEntry]) -> Searched {
    let entry = |e: &AlertEntry| Entry {
        address: e.address,
        asserting: e.asserting,
    };
    let mut entries: Vec<Entry> = row.iter().map(entry).collect();
    let answer = search(&mut entries);
    let row = entries.iter().map(|e| entry_of(e.address, e.asserting));
    match answer {
        Ok(address) => (0, address, row.collect()),
        Err(number) => (number, MARKER, row.collect()),
    }
}

fn entry_of(address: u8, asserting: bool) -> AlertEntry {
    AlertEntry { address, asserting }
}

/// Every row of at most `MOST_ENTRIES` entries, shorter ones first.
fn short_rows() -> impl Iterator<Item = Row> {
    let choices = 2 * ADDRESSES.len();
    let rows =
        move |count| (0..choices.pow(count as u32)).map(move |index| short_row(count, index));
    (0..=MOST_ENTRIES).flat_map(rows)
}

/// Row number `index` of those with so many entries.
fn short_row(count: usize, mut index: usize) -> Row {
    let entry = |_| {
        let (address, asserting) = (index / 2 % ADDRESSES.len(), index % 2 == 1);
        index /= 2 * ADDRESSES.len();
        entry_of(ADDRESSES[address], asserting)
    };
    (0..count).map(entry).collect()
}

/// A longer row: no address is outside, few, many, or the last one; no entry asserts, few do, many or all.
fn longer_row(seed: u64, index: u64) -> Row {
    let mut random = Random::new(seed, index);
    let count = match index {
        0..LONGEST => 65_530 + random.below(20),
        _ => MOST_ENTRIES + 1 + random.below(300),
    };
    let outside = random.pick(&[0, 0, 1, 20]);
    let asserting = random.pick(&[0, 1, 50, 100]);
    let entry = |_| {
        let address = match random.percent(outside) {
            true => random.pick(&ADDRESSES),
            false => random.pick(&[44, 45, 46]),
        };
        entry_of(address, random.percent(asserting))
    };
    let mut row: Row = (0..count).map(entry).collect();
    if random.percent(25) {
        row[count - 1].address = random.pick(&[43, 47]);
    }
    row
}

/// Takes all these rows; gives how many were answered with each of the numbers, or says which row differs.
pub fn compare(seed: u64) -> Result<[u64; NUMBERS.len()], String> {
    let mut seen = [0; NUMBERS.len()];
    let longer = (0..LONGER).map(|index| longer_row(seed, index));
    for row in short_rows().chain(longer) {
        let theirs = second_search(&row);
        for ours in [proved_search(&row), safe_search(&row)] {
            if ours != theirs {
                return Err(difference(&row, &ours, &theirs));
            }
        }
        for (number, seen) in NUMBERS.iter().zip(&mut seen) {
            *seen += u64::from(theirs.0 == *number);
        }
    }
    Ok(seen)
}

fn difference(row: &[AlertEntry], ours: &Searched, theirs: &Searched) -> String {
    format!(
        "a row of {} alert entries differs\n  {}\nkeeper:\n{}\nsecond program:\n{}",
        row.len(),
        shown(row),
        shown_search(ours),
        shown_search(theirs),
    )
}

fn shown_search((number, data, row): &Searched) -> String {
    format!("  answer={number} data={data}\n  {}", shown(row))
}

/// The entries of a row, each with a star where it asserts, without the end of a long one.
fn shown(row: &[AlertEntry]) -> String {
    let entry = |e: &AlertEntry| format!("{}{}", e.address, if e.asserting { "*" } else { "" });
    let entries: Vec<String> = row.iter().take(MOST_SHOWN).map(entry).collect();
    let more = if row.len() > MOST_SHOWN { " .." } else { "" };
    format!("[{}{more}]", entries.join(" "))
}

#[cfg(test)]
mod tests {
    use super::{compare, entry_of, longer_row, short_rows, shown, LONGER, LONGEST};

    #[test]
    fn every_short_row_comes_once() {
        let mut rows: Vec<String> = short_rows().map(|row| shown(&row)).collect();
        assert_eq!(rows[..3], ["[]", "[0]", "[0*]"]);
        rows.sort();
        rows.dedup();
        assert_eq!(
            rows.len(),
            1 + 14 + 14 * 14 + 14 * 14 * 14 + 14 * 14 * 14 * 14
        );
    }

    #[test]
    fn longer_rows_are_longer() {
        assert!((LONGEST..LONGER).all(|index| longer_row(1, index).len() > 4));
        assert!((0..LONGEST).any(|index| longer_row(1, index).len() > 65_536));
    }

    #[test]
    fn every_number_comes_and_none_differs() {
        let seen = compare(1).expect("no row differs");
        assert!(seen.iter().all(|&seen| seen > 0), "{seen:?}");
    }

    #[test]
    fn a_row_is_shown_with_its_lines() {
        assert_eq!(
            shown(&[entry_of(44, false), entry_of(45, true)]),
            "[44 45*]"
        );
        assert!(shown(&[entry_of(44, true); 41]).ends_with("44* ..]"));
    }
}
