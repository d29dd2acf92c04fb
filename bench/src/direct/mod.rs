//! The calls on a board as one would write them for speed in safe Rust: straight on the bytes, with nothing decoded that
//! is not needed. `reference` decodes the whole board for every call, so its counts are mostly the price of its shape;
//! these are the ones that a goal is held against. `bench compare` holds them against `reference` before they are measured.

mod order;
mod pairs;
mod rounds;
mod sound;
mod step;

use pairs::propose_all;
use reference::engine::{Engine, Reference, SHOWN};
use rounds::rounds;
use sound::checked;
use std::io::Write;
use step::step_on;

pub struct Direct;

const RECORD: usize = 24;

/// Where the records begin.
fn records_at(n: usize, k: usize) -> usize {
    8 + 8 * n * (1 + 2 * k)
}

/// Refusals 8 to 10; laying has one n fewer.
fn fits(length: usize, n: usize, k: usize) -> Result<(), u8> {
    if !(1..=16).contains(&n) {
        return Err(8);
    }
    if !(2..=64).contains(&k) {
        return Err(9);
    }
    if length != records_at(n, k) + RECORD * n {
        return Err(10);
    }
    Ok(())
}

fn word(bytes: &[u8]) -> u64 {
    u64::from_le_bytes(bytes.try_into().expect("eight bytes"))
}

fn figure(r: &[u8; RECORD], at: usize) -> i32 {
    i32::from_le_bytes([r[at], r[at + 1], r[at + 2], r[at + 3]])
}

/// The steps that the station has taken since its proposal.
fn steps(r: &[u8; RECORD]) -> u16 {
    u16::from_le_bytes([r[20], r[21]])
}

fn collects(phase: u8) -> bool {
    matches!(phase, 2 | 4 | 6)
}

/// The eight bytes of a filled register.
fn cell(mark: u8, island: u8, figure: i32) -> u64 {
    mark as u64 | (island as u64) << 8 | (figure as u32 as u64) << 32
}

/// The register of a phase's array: phases 1 and 2 have m, 3 and 4 A of the island, 5 and 6 B of it.
fn cell_at(n: usize, phase: u8, island: u8, place: usize) -> usize {
    let row = if phase <= 2 { 0 } else { 2 * island as usize + (phase as usize - 1) / 2 };
    8 + 8 * (n * row + place)
}

fn run(board: &mut [u8], stations: &[u8]) -> Result<u64, u8> {
    if stations.len() > 65_536 {
        return Err(6);
    }
    let (n, k) = checked(board)?;
    let (cells, records) = board.split_at_mut(records_at(n, k));
    let taken = stations.iter().filter(|s| step_on(cells, records, n, k, **s) > 255).count() as u64;
    Ok(taken << 8 | (stations.len() as u64 - taken) << 32)
}

fn show(board: &[u8], mut line: &mut [u8]) -> Result<usize, u8> {
    let (n, k) = checked(board)?;
    line.fill(0);
    let room = line.len();
    let text = "512 bytes hold any line";
    line.write_all(b"(stations").expect(text);
    for (who, r) in board[records_at(n, k)..].chunks_exact(RECORD).enumerate() {
        let r: &[u8; RECORD] = r.try_into().expect("a record's length");
        let word = match r[0] {
            0 => {
                write!(line, " ({} idle)", who + 1).expect(text);
                continue;
            }
            7 => "decided",
            8 => "spent",
            _ => "going",
        };
        write!(line, " ({} {word} {} {})", who + 1, r[2], figure(r, 12)).expect(text);
    }
    line.write_all(b")").expect(text);
    Ok(room - line.len())
}

impl Engine for Direct {
    // Lines of a sheet are not measured by this one; they are the other implementation's.
    fn rest(&self) -> &dyn Engine {
        &Reference
    }

    fn lay(&self, board: &mut [u8], n: u8, k: u8) -> u8 {
        if board.len() < 8 {
            return 7;
        }
        if n == 2 {
            return 8;
        }
        if let Err(refusal) = fits(board.len(), n as usize, k as usize) {
            return refusal;
        }
        board.fill(0);
        (board[0], board[1]) = (n, k);
        0
    }

    fn propose(&self, board: &mut [u8], station: u8, figure: i32) -> u8 {
        let (n, k) = match checked(board) {
            Ok(size) => size,
            Err(refusal) => return refusal,
        };
        let who = (station as usize).wrapping_sub(1);
        if who >= n {
            return 12;
        }
        if n == 2 {
            return 22;
        }
        let r = &mut board[records_at(n, k)..][RECORD * who..][..RECORD];
        if r[0] != 0 {
            return 13;
        }
        r[0] = 1;
        r[8..12].copy_from_slice(&figure.to_le_bytes());
        r[12..16].copy_from_slice(&figure.to_le_bytes());
        0
    }

    fn propose_all(&self, board: &mut [u8], pairs: &mut [u64]) -> u8 {
        propose_all(board, pairs).err().unwrap_or(0)
    }

    fn check(&self, board: &mut [u8]) -> u8 {
        checked(board).err().unwrap_or(0)
    }

    fn step(&self, board: &mut [u8], station: u8) -> u64 {
        let (n, k) = match checked(board) {
            Ok(size) => size,
            Err(refusal) => return refusal as u64,
        };
        let (cells, records) = board.split_at_mut(records_at(n, k));
        step_on(cells, records, n, k, station)
    }

    fn standing(&self, board: &mut [u8], station: u8) -> u64 {
        let (n, k) = match checked(board) {
            Ok(size) => size,
            Err(refusal) => return refusal as u64,
        };
        let who = (station as usize).wrapping_sub(1);
        if who >= n {
            return 12;
        }
        let r = &board[records_at(n, k)..][RECORD * who..][..RECORD];
        let r: &[u8; RECORD] = r.try_into().expect("a record's length");
        let kind = match r[0] {
            0 => 1,
            7 => 3,
            8 => 4,
            _ => 2,
        };
        // An idle station's record is all zero.
        word(&r[8..16]) >> 32 << 32 | (steps(r) as u64) << 20 | (r[2] as u64) << 12 | kind << 8
    }

    fn run(&self, board: &mut [u8], stations: &mut [u8]) -> u64 {
        run(board, stations).unwrap_or_else(|refusal| refusal as u64)
    }

    fn rounds(&self, board: &mut [u8], most: u8, named: &mut [u8]) -> u64 {
        if named.len() > u32::MAX as usize {
            return u64::MAX;
        }
        rounds(board, most, named).unwrap_or_else(|refusal| refusal as u64)
    }

    fn show(&self, board: &mut [u8], line: &mut [u8]) -> u32 {
        if line.len() < SHOWN {
            return u32::MAX;
        }
        show(board, &mut line[..SHOWN]).map_or_else(|refusal| refusal as u32, |length| (length as u32) << 16)
    }
}
