//! Boards made at random: sound ones that no run need reach, damaged ones, hostile ones.

use crate::bytes::{length, Cell, Fields, Record};
use crate::figure::Figure;
use crate::model::Rows;
use crate::random::Random;
use crate::sound::most_steps;

/// Where a station stands; the position to read next counts in a collect only.
#[derive(Clone, Copy, Debug)]
pub struct Place {
    pub phase: u8,
    pub island: u8,
    pub next: u8,
}

/// A board whose every field is drawn within the clauses of soundness, and nothing more.
pub fn sound(r: &mut Random, n: u8, k: u8) -> Vec<u8> {
    drawn(r, n, k, &[0, 1, 2, 3, 4, 5, 6, 7, 8])
}

/// The same, with nobody amid a collect.
pub fn between_collects(r: &mut Random, n: u8, k: u8) -> Vec<u8> {
    drawn(r, n, k, &[0, 1, 1, 3, 3, 5, 5, 7, 8])
}

/// The same, with every second station idle or so.
pub fn half_idle(r: &mut Random, n: u8, k: u8) -> Vec<u8> {
    drawn(r, n, k, &[0, 0, 0, 0, 0, 0, 0, 0, 1, 2, 3, 4, 5, 6, 7, 8])
}

fn drawn(r: &mut Random, n: u8, k: u8, phases: &[u8]) -> Vec<u8> {
    let width = n as usize;
    let mut f = Fields {
        n,
        k,
        zeros: [0; 6],
        m: vec![Cell::default(); width],
        a: Rows::filled(width, k as usize, Cell::default()),
        b: Rows::filled(width, k as usize, Cell::default()),
        records: vec![Record::default(); width],
    };
    f.m.iter_mut().for_each(|c| *c = cell(r, 1, k));
    f.a.all.iter_mut().for_each(|c| *c = cell(r, 1, 1));
    f.b.all.iter_mut().for_each(|c| *c = cell(r, 2, 1));
    for who in 0..width {
        let place = place(r, n, k, phases);
        f.records[who] = record(r, who, k, place);
        f.records[who].steps = steps(r, most_steps(n, &f.records[who]) as usize);
        own(&mut f, who);
    }
    f.to_bytes()
}

/// A sound board on which one station stands at this place and has counted no step.
pub fn standing_at(r: &mut Random, n: u8, k: u8, who: usize, place: Place) -> Vec<u8> {
    let mut f = Fields::of_bytes(&sound(r, n, k));
    stand(r, &mut f, who, place);
    f.to_bytes()
}

/// A sound board on which every station stands at its place, as many as there are places.
pub fn all_standing(r: &mut Random, k: u8, places: &[Place]) -> Vec<u8> {
    let mut f = Fields::of_bytes(&sound(r, places.len() as u8, k));
    places.iter().enumerate().for_each(|(who, place)| stand(r, &mut f, who, *place));
    f.to_bytes()
}

fn stand(r: &mut Random, f: &mut Fields, who: usize, place: Place) {
    f.records[who] = record(r, who, f.k, place);
    own(f, who);
}

fn cell(r: &mut Random, marks: u8, islands: u8) -> Cell {
    if r.once_in(3) {
        return Cell::default();
    }
    let mark = r.between(1, marks as usize) as u8;
    Cell { mark, island: r.below(islands as usize) as u8, zeros: [0; 2], figure: r.figure() }
}

fn place(r: &mut Random, n: u8, k: u8, phases: &[u8]) -> Place {
    let phase = r.pick(phases);
    let island = if r.once_in(3) { k - 1 } else { r.below(k as usize) as u8 };
    let next = if r.once_in(2) { n - 1 } else { r.below(n as usize) as u8 };
    Place { phase, island, next }
}

fn record(r: &mut Random, who: usize, k: u8, place: Place) -> Record {
    let Place { phase, island, next } = place;
    if phase == 0 {
        return Record::default();
    }
    let flag = if matches!(phase, 5 | 6) { r.between(1, 2) as u8 } else { 0 };
    let plain = Record { phase, island, flag, proposal: r.figure(), carried: r.figure(), ..Record::default() };
    if !matches!(phase, 2 | 4 | 6) {
        return plain;
    }
    let passed = next as usize > who;
    let most = phase as usize / 2;
    let seen = r.between(passed as usize, most) as u8;
    let begun = Record { next, met: met(r, next), ..plain };
    if seen == 0 {
        return begun;
    }
    let best_island = if phase == 2 { r.below(k as usize) as u8 } else { 0 };
    let drawn = (best_island, Figure::of(r.figure()));
    let wrote = Figure::of(begun.carried);
    let (best_island, best) = match phase {
        2 if passed => drawn.max((island, wrote)),
        4 if passed => drawn.max((0, wrote)),
        _ => drawn,
    };
    Record { seen, best_island, best: best.number(), ..begun }
}

/// Filled registers that soundness allows a collect to have met before this position, whatever it has seen: often at its
/// ends.
fn met(r: &mut Random, next: u8) -> u8 {
    match r.below(4) {
        0 => 0,
        1 | 2 => next,
        _ => r.between(0, next as usize) as u8,
    }
}

/// A count of steps that soundness allows: often at its ends, or where the low byte is full.
fn steps(r: &mut Random, most: usize) -> u16 {
    let full = r.between(0, most / 256) * 256 + 255;
    let steps = match r.below(4) {
        0 => most,
        1 => full.min(most),
        2 => 0,
        _ => r.between(0, most),
    };
    steps as u16
}

/// The own register holds what the record says the station wrote.
fn own(f: &mut Fields, who: usize) {
    let r = f.records[who];
    let cell = |mark, island| Cell { mark, island, zeros: [0; 2], figure: r.carried };
    match r.phase {
        2 => f.m[who] = cell(1, r.island),
        4 => f.a.row_mut(r.island)[who] = cell(1, 0),
        6 => f.b.row_mut(r.island)[who] = cell(r.flag, 0),
        _ => {}
    }
}

/// One byte changed: to a near value as often as to any.
pub fn damaged(r: &mut Random, mut board: Vec<u8>) -> Vec<u8> {
    if board.is_empty() {
        return board;
    }
    let records = board.len() - 24 * board[0].clamp(1, 16) as usize;
    let at = match r.below(3) {
        0 => r.between(records.min(board.len() - 1), board.len() - 1),
        1 => r.below(board.len().min(8)),
        _ => r.below(board.len()),
    };
    board[at] = match r.below(4) {
        0 => board[at].wrapping_add(1),
        1 => board[at].wrapping_sub(1),
        2 => board[at] ^ (1 << r.below(8)),
        _ => r.byte(),
    };
    board
}

/// A board that is longer or shorter than its head asks for.
pub fn resized(r: &mut Random, mut board: Vec<u8>) -> Vec<u8> {
    let size = match r.below(4) {
        0 => r.below(16),
        1 => board.len() + 1,
        2 => board.len() - 1,
        _ => r.below(board.len() + 40),
    };
    board.resize_with(size, || r.byte());
    board
}

/// Any bytes: of any length, or of the length that the head asks for.
pub fn hostile(r: &mut Random) -> Vec<u8> {
    if r.once_in(2) {
        let size = r.below(400);
        return (0..size).map(|_| r.byte()).collect();
    }
    let (n, k) = (r.between(1, 4) as u8, r.between(2, 4) as u8);
    let few = r.once_in(2);
    let mut board: Vec<u8> = (0..length(n, k)).map(|_| if few { r.below(3) as u8 } else { r.byte() }).collect();
    (board[0], board[1]) = (n, k);
    if r.once_in(2) {
        board[2..8].fill(0);
    }
    board
}

#[cfg(test)]
mod tests {
    use super::*;
    use crate::bytes::{fields, values};
    use crate::sound::broken;

    /// The values of a sound board are turned back into exactly its bytes.
    #[test]
    fn made_boards_are_sound_and_come_back() {
        let mut r = Random::new(11);
        for _ in 0..4000 {
            let (n, k) = (r.between(1, 6) as u8, r.between(2, 5) as u8);
            let board = sound(&mut r, n, k);
            let raw = Fields::of_bytes(&board);
            assert_eq!(broken(&raw), Vec::<&str>::new());
            assert_eq!(fields(&values(&raw)).to_bytes(), board);
        }
    }

    /// Every clause is broken by some board that differs from a sound one in a byte.
    #[test]
    fn every_clause_is_met() {
        let mut r = Random::new(12);
        let mut met = std::collections::BTreeSet::new();
        for _ in 0..40_000 {
            let (n, k) = (r.between(1, 4) as u8, r.between(2, 3) as u8);
            let board = sound(&mut r, n, k);
            let board = damaged(&mut r, board);
            if (board[0], board[1]) == (n, k) {
                met.extend(broken(&Fields::of_bytes(&board)));
            }
        }
        let all: std::collections::BTreeSet<&str> = crate::sound::CLAUSES.iter().map(|c| c.name).collect();
        assert_eq!(met, all);
    }
}
