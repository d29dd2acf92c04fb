//! Rounds on a lent board: the list is read once to test it and once to play it.

use super::step::step_on;
use super::{checked, collects, records_at, RECORD};

/// Ends a round in the list.
const END: u8 = 255;

/// How many stations stand decided, and how many rounds were played, as the call packs them.
pub fn rounds(board: &mut [u8], most: u8, named: &[u8]) -> Result<u64, u8> {
    let (n, k) = checked(board)?;
    let (cells, records) = board.split_at_mut(records_at(n, k));
    if phases(records).any(collects) {
        return Err(18);
    }
    if !fit(n, most, named) {
        return Err(19);
    }
    let mut left = named;
    let mut played = 0u64;
    while !left.is_empty() {
        left = round(cells, records, n, k, left);
        played += 1;
    }
    let decided = phases(records).filter(|phase| *phase == 7).count() as u64;
    Ok(decided << 8 | played << 16)
}

fn phases(records: &[u8]) -> impl Iterator<Item = u8> + '_ {
    records.iter().step_by(RECORD).copied()
}

/// Every round names at most so many stations from 1 to n, rising.
fn fit(n: usize, most: u8, named: &[u8]) -> bool {
    let (mut last, mut count) = (0, 0);
    for &station in named {
        if station == END {
            (last, count) = (0, 0);
            continue;
        }
        if station <= last || station as usize > n || count == most {
            return false;
        }
        (last, count) = (station, count + 1);
    }
    true
}

/// One round that fits, and the list behind it.
fn round<'a>(cells: &mut [u8], records: &mut [u8], n: usize, k: usize, named: &'a [u8]) -> &'a [u8] {
    let first = |left: &[u8]| left.first().copied().unwrap_or(END);
    let mut left = named;
    let mut suspended = first(left);
    for who in 0..n {
        let station = who as u8 + 1;
        if station == suspended {
            left = &left[1..];
            suspended = first(left);
        } else if matches!(records[RECORD * who], 1..=6) {
            for _ in 0..=n {
                step_on(cells, records, n, k, station);
            }
        }
    }
    left.strip_prefix(&[END]).unwrap_or(left)
}
