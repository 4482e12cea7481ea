//! T-02: who pulled the alert line? Several keepers share it, and a read of the alert response address 0x0C asks.

/// One keeper on the line: its address, and whether it asserts the line.
#[derive(Clone, Copy, PartialEq, Eq, Debug)]
pub struct Entry {
    pub address: u8,
    pub asserting: bool,
}

/// The lowest address that asserts, and its entry lets go; or the number of the refusal, and no entry changes.
pub fn search(row: &mut [Entry]) -> Result<u8, u8> {
    if row.iter().any(|e| !(44..=46).contains(&e.address)) {
        return Err(6);
    }
    let mut places: Vec<usize> = (0..row.len()).collect();
    places.sort_by_key(|&place| row[place].address);
    let twice = |pair: &[usize]| row[pair[0]].address == row[pair[1]].address;
    if places.windows(2).any(twice) {
        return Err(12);
    }
    let lowest = places.into_iter().find(|&place| row[place].asserting);
    let place = lowest.ok_or(12)?;
    row[place].asserting = false;
    Ok(row[place].address)
}
