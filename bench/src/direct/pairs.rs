//! Figures put in together: the list is read once for stations that are named twice, once to try it and once to put it in.

use super::{checked, records_at, RECORD};

/// A pair is one number: the station in its lowest byte, the figure in its upper half.
fn station(pair: u64) -> u8 {
    pair as u8
}

/// Whether one byte comes twice: a bit for each that came.
fn named_twice(pairs: &[u64]) -> bool {
    let mut named = [0u64; 4];
    pairs.iter().any(|pair| {
        let word = &mut named[station(*pair) as usize / 64];
        let bit = 1 << (station(*pair) % 64);
        let again = *word & bit != 0;
        *word |= bit;
        again
    })
}

pub fn propose_all(board: &mut [u8], pairs: &[u64]) -> Result<(), u8> {
    let (n, k) = checked(board)?;
    let records = &mut board[records_at(n, k)..];
    if named_twice(pairs) {
        return Err(20);
    }
    for pair in pairs {
        let who = (station(*pair) as usize).wrapping_sub(1);
        if who >= n {
            return Err(12);
        }
        if n == 2 {
            return Err(22);
        }
        if records[RECORD * who] != 0 {
            return Err(13);
        }
    }
    for pair in pairs {
        let r = &mut records[RECORD * (station(*pair) as usize - 1)..][..RECORD];
        let figure = ((pair >> 32) as u32).to_le_bytes();
        r[0] = 1;
        r[8..12].copy_from_slice(&figure);
        r[12..16].copy_from_slice(&figure);
    }
    Ok(())
}
