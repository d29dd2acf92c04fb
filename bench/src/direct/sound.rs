//! The test of a lent board, in one pass over its bytes.

use super::order::{above, pair_above};
use super::{cell, cell_at, collects, figure, fits, records_at, steps, word, RECORD};

/// Refusals 7 to 11, and n and K of a sound board.
pub fn checked(board: &[u8]) -> Result<(usize, usize), u8> {
    if board.len() < 8 {
        return Err(7);
    }
    let (n, k) = (board[0] as usize, board[1] as usize);
    fits(board.len(), n, k)?;
    if sound(board, n, k) {
        Ok((n, k))
    } else {
        Err(11)
    }
}

fn sound(board: &[u8], n: usize, k: usize) -> bool {
    let (cells, records) = board.split_at(records_at(n, k));
    let (m, islands) = cells[8..].split_at(8 * n);
    word(&cells[..8]) >> 16 == 0
        && m.chunks_exact(8).all(|c| word(c) == 0 || c[0] == 1 && (c[1] as usize) < k && c[2..4] == [0; 2])
        && islands.chunks_exact(16 * n).all(|island| {
            let (a, b) = island.split_at(8 * n);
            filled(a, 1) && filled(b, 2)
        })
        && records.chunks_exact(RECORD).enumerate().all(|(who, r)| {
            let r = r.try_into().expect("a record's length");
            fields_sound(r, n, k) && own_sound(cells, r, n, who)
        })
}

/// Half of a register.
fn half(bytes: &[u8]) -> u32 {
    u32::from_le_bytes(bytes.try_into().expect("four bytes"))
}

/// Registers of A or B: empty, or a mark with zeros up to the figure.
fn filled(row: &[u8], marks: u32) -> bool {
    row.chunks_exact(8).all(|c| match half(&c[..4]) {
        0 => half(&c[4..]) == 0,
        mark => mark <= marks,
    })
}

fn fields_sound(r: &[u8; RECORD], n: usize, k: usize) -> bool {
    let [phase, next, island, seen, best_island, flag, ..] = *r;
    if phase == 0 {
        return r.iter().all(|b| *b == 0);
    }
    let best = figure(r, 16);
    let flags = if matches!(phase, 5 | 6) { flag == 1 || flag == 2 } else { flag == 0 };
    let ranges = phase <= 8 && (next as usize) < n && (island as usize) < k && (best_island as usize) < k;
    // With byte 7, which is zero, as its high byte: at most the position, which is zero outside a collect.
    let met = u16::from_le_bytes([r[6], r[7]]);
    let counts = met <= next as u16 && r[22..24] == [0; 2];
    let summary = match phase {
        2 => seen <= 1,
        4 => seen <= 2,
        6 => seen <= 3,
        _ => next == 0 && seen == 0 && best == 0,
    };
    flags
        && ranges
        && counts
        && summary
        && (phase == 2 || best_island == 0)
        && (seen != 0 || best_island == 0 && best == 0)
        && steps(r) as usize <= most_steps(n, phase, island, next)
}

/// An island has three arrays, each with a write and n reads; phases 7 and 8 have all three behind them.
fn most_steps(n: usize, phase: u8, island: u8, next: u8) -> usize {
    let arrays = 3 * island as usize + (phase as usize - 1) / 2;
    let begun = if collects(phase) { 1 + next as usize } else { 0 };
    arrays * (n + 1) + begun
}

fn own_sound(cells: &[u8], r: &[u8; RECORD], n: usize, who: usize) -> bool {
    let [phase, next, island, seen, best_island, flag, ..] = *r;
    if !collects(phase) {
        return true;
    }
    let (carried, best) = (figure(r, 12), figure(r, 16));
    let (mark, there) = match phase {
        2 => (1, island),
        4 => (1, 0),
        _ => (flag, 0),
    };
    let at = cell_at(n, phase, island, who);
    if word(&cells[at..at + 8]) != cell(mark, there, carried) {
        return false;
    }
    if next as usize <= who {
        return true;
    }
    seen != 0
        && match phase {
            2 => !pair_above((island, carried), (best_island, best)),
            4 => !above(carried, best),
            _ => true,
        }
}
