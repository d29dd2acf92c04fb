//! Which boards are compared for how figures compare: of one size and both signs, of sizes beside each other and at both
//! ends, wherever a call looks which of two is the larger, or whether they are one.

use crate::boards::{self, Place};
use crate::bytes::{length, Cell, Fields, Record};
use crate::compare::{Call, Compare};
use crate::figure::EDGES;
use crate::random::Random;

impl Compare<'_> {
    /// A station amid a collect, with a best that is near what it wrote, and reading what is near its best. The board is
    /// sound but for that best, or for the station's own register where that is near what it wrote and not the same.
    pub fn ordered_board(&mut self, seed: u64) {
        let mut r = Random::new(seed);
        let (n, k) = if r.once_in(8) { r.size() } else { (r.between(1, 5) as u8, r.between(2, 4) as u8) };
        let (who, last) = (r.below(n as usize), n as usize - 1);
        // Mostly beyond its own position, from where on soundness looks at the best.
        let from = if r.once_in(4) { 0 } else { last.min(who + 1) };
        let next = r.between(from, last) as u8;
        let place = Place { phase: r.pick(&[2, 2, 4, 4, 6]), island: r.below(k as usize) as u8, next };
        let mut f = Fields::of_bytes(&boards::standing_at(&mut r, n, k, who, place));
        near_what_it_wrote(&mut r, &mut f, who);
        let board = f.to_bytes();
        self.every_call(seed, &mut r, &board);
        self.once(seed, Call::Run(&vec![who as u8 + 1; n as usize]), &board);
    }

    /// A figure with each of the edges: as what a station wrote and its best, or what its own register holds, and as its
    /// best and what it reads.
    pub fn every_pair(&mut self, seed: u64, one: i32) {
        for other in EDGES {
            for board in wrote_and_has(one, other) {
                self.once(seed, Call::Check, &board);
                self.once(seed, Call::Step(1), &board);
            }
            for board in best_and_read(one, other) {
                self.once(seed, Call::Step(1), &board);
                self.once(seed, Call::Run(&[1, 1]), &board);
            }
        }
    }
}

/// The registers that a station amid a collect reads.
fn row<'a>(f: &'a mut Fields, record: &Record) -> &'a mut [Cell] {
    match record.phase {
        2 => &mut f.m,
        4 => f.a.row_mut(record.island),
        _ => f.b.row_mut(record.island),
    }
}

/// What `ordered_board` puts there, the own register once in six times.
fn near_what_it_wrote(r: &mut Random, f: &mut Fields, who: usize) {
    let k = f.k as usize;
    let mut record = f.records[who];
    let mut island = |near: u8| match record.phase {
        2 if r.once_in(3) => r.below(k) as u8,
        2 => near,
        _ => 0,
    };
    record.best_island = island(record.island);
    let island = island(record.best_island);
    record.best = r.near(record.carried);
    record.seen = record.seen.max(1);
    f.records[who] = record;
    let row = row(f, &record);
    if r.once_in(6) {
        row[who].figure = r.near(record.carried);
    }
    if record.next as usize != who {
        let mark = if record.phase == 6 { r.between(1, 2) as u8 } else { 1 };
        row[record.next as usize] = Cell { mark, island, zeros: [0; 2], figure: r.near(record.best) };
    }
}

/// The first station stands amid a collect and has read its own register. It reads the second one next, which is the last
/// one of two and not of three. Islands count in m alone.
#[derive(Clone, Copy)]
pub struct Amid {
    pub n: u8,
    pub phase: u8,
    pub seen: u8,
    pub wrote: (u8, i32),
    /// What the own register holds for the figure that was written.
    pub holds: i32,
    pub best: (u8, i32),
    pub read: (u8, i32),
    /// That of the register that is read next.
    pub mark: u8,
}

/// With 0, the lowest figure, written on the first island, so that any best is sound.
pub const LOWEST: Amid = Amid { n: 2, phase: 4, seen: 1, wrote: (0, 0), holds: 0, best: (0, 0), read: (0, 0), mark: 1 };

impl Amid {
    pub fn board(self) -> Vec<u8> {
        let k = 3;
        let mut fresh = vec![0; length(self.n, k)];
        (fresh[0], fresh[1]) = (self.n, k);
        let mut f = Fields::of_bytes(&fresh);
        let of_m = |island| if self.phase == 2 { island } else { 0 };
        let record = Record {
            phase: self.phase,
            next: 1,
            island: self.wrote.0,
            seen: self.seen,
            best_island: of_m(self.best.0),
            flag: (self.phase == 6) as u8,
            met: 1,
            proposal: self.wrote.1,
            carried: self.wrote.1,
            best: self.best.1,
            ..Record::default()
        };
        f.records[0] = record;
        let row = row(&mut f, &record);
        row[0] = Cell { mark: 1, island: of_m(self.wrote.0), zeros: [0; 2], figure: self.holds };
        row[1] = Cell { mark: self.mark, island: of_m(self.read.0), zeros: [0; 2], figure: self.read.1 };
        f.to_bytes()
    }
}

/// Boards that are sound or not by how what was written compares with the best, or with what the own register holds.
fn wrote_and_has(wrote: i32, has: i32) -> Vec<Vec<u8>> {
    let mut boards = Vec::new();
    for (phase, island) in [(2, 0), (2, 1), (2, 2), (4, 1), (6, 1)] {
        boards.push(Amid { phase, wrote: (1, wrote), holds: wrote, best: (island, has), ..LOWEST });
    }
    for phase in [2, 4, 6] {
        boards.push(Amid { phase, wrote: (1, wrote), holds: has, best: (1, wrote), ..LOWEST });
    }
    boards.into_iter().map(Amid::board).collect()
}

/// Boards on which what is read next comes to a best that was seen alone, and in A to one of different figures as well;
/// in B an adopt to an adopt, and a commit to a commit.
fn best_and_read(best: i32, read: i32) -> Vec<Vec<u8>> {
    let mut boards = Vec::new();
    for n in [2, 3] {
        for island in [0, 1, 2] {
            boards.push(Amid { n, phase: 2, best: (1, best), read: (island, read), ..LOWEST });
        }
        for (phase, seen, mark) in [(4, 1, 1), (4, 2, 1), (6, 1, 1), (6, 2, 2)] {
            boards.push(Amid { n, phase, seen, best: (0, best), read: (0, read), mark, ..LOWEST });
        }
    }
    boards.into_iter().map(Amid::board).collect()
}
