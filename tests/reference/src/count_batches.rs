//! Which boards are compared for the steps that their records count: at and around the most that soundness allows, in
//! every phase, and driven on until the counts are as high as they get.

use crate::boards::{self, Place};
use crate::bytes::Fields;
use crate::compare::{Call, Compare};
use crate::habits;
use crate::halts::ROUND_END;
use crate::random::Random;
use crate::sound::most_steps;

/// A record's last bytes: the count, and the two behind it.
const TAIL: usize = 4;

/// Counts that a byte or the twelve bits of an answer do not hold, and the largest that any board allows.
const COUNTS: [u16; 12] = [0, 1, 255, 256, 257, 512, 3264, 3265, 4095, 4096, 32768, 65535];

/// Boards whose counts stay within a byte, and boards whose counts do not: with n = 16 and K = 6 the last island begins
/// at 255.
pub const SIZES: [(u8, u8); 5] = [(1, 2), (2, 3), (5, 22), (16, 6), (16, 64)];

impl Compare<'_> {
    /// A sound board of which one record's last bytes are put to an edge or beyond it: one step above the most as often as
    /// not, which is the board that a wrong bound lets by.
    pub fn counted_board(&mut self, seed: u64) {
        let mut r = Random::new(seed);
        let (n, k) = if r.once_in(8) { r.size() } else { (r.between(1, 5) as u8, r.between(2, 4) as u8) };
        let mut board = boards::sound(&mut r, n, k);
        let who = r.below(n as usize);
        let most = most(&board, who);
        let bytes = if r.once_in(2) { counted(most + 1) } else { r.pick(&tails(most)) };
        tail(&mut board, who).copy_from_slice(&bytes);
        self.every_call(seed, &mut r, &board);
    }

    /// A station at every kind of place, with every tail there.
    pub fn every_tail(&mut self, seed: u64, (n, k): (u8, u8)) {
        let mut r = Random::new(seed);
        for place in places(n, k) {
            let who = if r.once_in(2) { n as usize - 1 } else { r.below(n as usize) };
            self.tails_at(seed, &mut boards::standing_at(&mut r, n, k, who, place), who);
        }
    }

    fn tails_at(&mut self, seed: u64, board: &mut [u8], who: usize) {
        let station = who as u8 + 1;
        for bytes in tails(most(board, who)) {
            tail(board, who).copy_from_slice(&bytes);
            self.once(seed, Call::Check, board);
            self.once(seed, Call::Standing(station), board);
            self.once(seed, Call::Step(station), board);
            self.once(seed, Call::Propose(station, 5), board);
            self.once(seed, Call::Run(&[station; 3]), board);
            self.once(seed, Call::Rounds(0, &[ROUND_END]), board);
        }
    }

    /// Boards on which every station comes to 3(n + 1)K steps, more than a byte holds: by one run, by one call of rounds,
    /// and in pieces after which every station is asked.
    pub fn most_counted(&mut self, seed: u64) {
        let mut r = Random::new(seed);
        for (n, k, longest) in [(3, 64, 3), (16, 64, 2000)] {
            let (board, halts) = (habits::rising(n, k), habits::contended(n, k));
            let steps = halts.single_steps(n);
            self.once(seed, Call::Run(&steps), &board);
            self.once(seed, Call::Rounds(halts.most, &halts.to_bytes()), &board);
            let (mut ours, mut theirs) = self.copies(&board);
            let mut left = &steps[..];
            while !left.is_empty() {
                let (piece, rest) = left.split_at(r.between(1, longest).min(left.len()));
                left = rest;
                self.call(seed, Call::Run(piece), &mut ours, &mut theirs);
                for station in 1..=n {
                    self.call(seed, Call::Standing(station), &mut ours, &mut theirs);
                }
            }
            let again: Vec<u8> = (0..=n + 1).collect();
            self.call(seed, Call::Run(&again), &mut ours, &mut theirs);
            for station in again {
                self.call(seed, Call::Step(station), &mut ours, &mut theirs);
            }
        }
    }
}

fn tail(board: &mut [u8], who: usize) -> &mut [u8] {
    let end = board.len() - 24 * (board[0] as usize - 1 - who);
    &mut board[end - TAIL..end]
}

/// The most steps that soundness allows the station.
fn most(board: &[u8], who: usize) -> u16 {
    let f = Fields::of_bytes(board);
    most_steps(f.n, &f.records[who]) as u16
}

fn counted(steps: u16) -> [u8; TAIL] {
    let [low, high] = steps.to_le_bytes();
    [low, high, 0, 0]
}

/// Last bytes of a record that may count so many steps and no more: at that bound and beside it, with its bytes alone, full
/// or exchanged, and with the bytes behind the count set.
fn tails(most: u16) -> Vec<[u8; TAIL]> {
    let near = [most, most.saturating_sub(1), most + 1, most + 256, most.saturating_sub(256), most / 2];
    let bytes = [most & 0xFF, most & 0xFF00, most | 0xFF, most | 0xFF00, most.swap_bytes()];
    let mut tails: Vec<[u8; TAIL]> = near.into_iter().chain(bytes).chain(COUNTS).map(counted).collect();
    let [low, high, ..] = counted(most);
    tails.extend([[low, high, 1, 0], [low, high, 0, 1], [0, 0, 1, 0], [0, 0, 0, 1], [0, 0, 128, 0], [0, 0, 0, 255]]);
    tails.sort();
    tails.dedup();
    tails
}

/// Every phase on the first islands and the last, a collect at its start, amid it and at its end.
fn places(n: u8, k: u8) -> Vec<Place> {
    let mut places = Vec::new();
    for phase in 0..=8 {
        let mut nexts = if matches!(phase, 2 | 4 | 6) { vec![0, n / 2, n - 1] } else { vec![0] };
        nexts.dedup();
        for island in [0, 1, k / 2, k - 1] {
            places.extend(nexts.iter().map(|next| Place { phase, island, next: *next }));
        }
    }
    places
}
