//! One step on a board that is known to be sound.

use super::order::{above, pair_above};
use super::{cell, cell_at, collects, figure, steps, word, RECORD};

fn told(kind: u64, place: u8, met: u8, figure: i32) -> u64 {
    kind << 8 | (place as u64) << 16 | (met as u64) << 24 | (figure as u32 as u64) << 32
}

/// A step of a sound board whose records were split off: the packed answer, or the refusal's number.
pub fn step_on(cells: &mut [u8], records: &mut [u8], n: usize, k: usize, station: u8) -> u64 {
    let who = (station as usize).wrapping_sub(1);
    if who >= n {
        return 12;
    }
    let r: &mut [u8; RECORD] = (&mut records[RECORD * who..][..RECORD]).try_into().expect("a record's length");
    let phase = r[0];
    match phase {
        0 => return 14,
        7 => return 15,
        8.. => return 16,
        _ => {}
    }
    let taken = steps(r) + 1;
    r[20..22].copy_from_slice(&taken.to_le_bytes());
    if !collects(phase) {
        let at = cell_at(n, phase, r[2], who);
        let mark = if phase == 5 { r[5] } else { 1 };
        let island = if phase == 1 { r[2] } else { 0 };
        cells[at..at + 8].copy_from_slice(&cell(mark, island, figure(r, 12)).to_le_bytes());
        r[0] = phase + 1;
        return told(1, 0, 0, 0);
    }
    let at = cell_at(n, phase, r[2], r[1] as usize);
    let read = word(&cells[at..at + 8]);
    if read != 0 {
        r[6] += 1;
        see(r, phase, read);
    }
    r[1] += 1;
    if (r[1] as usize) < n {
        return told(2, 0, (read != 0) as u8, 0);
    }
    finish(r, phase, k)
}

/// One filled register added to what the collect has seen, which is written where it changes.
fn see(r: &mut [u8; RECORD], phase: u8, read: u64) {
    let (mark, island, value) = (read as u8, (read >> 8) as u8, (read >> 32) as u32 as i32);
    let (seen, best) = (r[3], figure(r, 16));
    let larger = match (seen, phase) {
        (0, 6) => {
            r[3] = mark;
            true
        }
        (0, _) => {
            r[3] = 1;
            true
        }
        (_, 2) => pair_above((island, value), (r[4], best)),
        (1, 4) if value == best => false,
        (_, 4) => {
            r[3] = 2;
            above(value, best)
        }
        (1, _) if mark == 1 => above(value, best),
        (1, _) => {
            r[3] = 3;
            true
        }
        (2, _) if mark == 2 && value == best => false,
        _ => {
            r[3] = 3;
            false
        }
    };
    if larger {
        r[4] = island;
        r[16..20].copy_from_slice(&value.to_le_bytes());
    }
}

/// The end of a collect: the record of the next phase, with nothing seen and nothing met.
fn finish(r: &mut [u8; RECORD], phase: u8, k: usize) -> u64 {
    let (island, seen, met, best) = (r[2], r[3], r[6], figure(r, 16));
    let (after, c, flag, answer) = match phase {
        2 => (3, r[4], 0, told(3, r[4], met, best)),
        4 => {
            let flag = if seen == 1 { 2 } else { 1 };
            (5, island, flag, told(4, flag, met, best))
        }
        _ if seen == 2 => (7, island, 0, told(6, island, met, best)),
        _ if (island as usize) + 1 < k => (1, island + 1, 0, told(5, island + 1, met, best)),
        _ => (8, island, 0, told(7, island, met, best)),
    };
    r[..8].copy_from_slice(&[after, 0, c, 0, 0, flag, 0, 0]);
    r[12..16].copy_from_slice(&best.to_le_bytes());
    r[16..20].copy_from_slice(&[0; 4]);
    answer
}
