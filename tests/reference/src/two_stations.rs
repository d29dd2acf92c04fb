//! Which calls are compared for two stations being too few: layings of every size, and, on boards of two stations that are made
//! by hand, every proposal and every other call, which goes on there as on boards of any other number.
//! `batches` makes these; `two_runs` has whole runs from the start of two stations.

use crate::boards::{self, Place};
use crate::bytes::length;
use crate::compare::{Call, Compare};
use crate::engine::SHOWN;
use crate::habits;
use crate::halts::ROUND_END;
use crate::lent::pattern;
use crate::model::TOO_FEW;
use crate::pairs::word;
use crate::random::Random;
use crate::starts;

/// Those of the board, and such as are not there.
const STATIONS: [u8; 8] = [0, 1, 2, 3, 4, 17, 130, 255];

/// Around both ends of what K may be.
const ISLANDS: [u8; 9] = [0, 1, 2, 3, 63, 64, 65, 66, 255];

/// No memory of more bytes is lent to a laying.
const LONGEST: usize = 20_000;

/// Every list of up to three of these stations, with figures of its own.
fn lists() -> Vec<Vec<u64>> {
    const NAMED: [u8; 5] = [0, 1, 2, 3, 255];
    let mut all: Vec<Vec<u64>> = vec![vec![]];
    for at in 0..3 {
        let shorter: Vec<Vec<u64>> = all.iter().filter(|list| list.len() == at).cloned().collect();
        let one = |station: u8| word((station, 5 - at as i32));
        all.extend(shorter.iter().flat_map(|list| NAMED.map(|station| [&list[..], &[one(station)]].concat())));
    }
    all
}

/// Lengths at which one of 7, 10 and acceptance turns into another: that of n and K, those of other boards, and a head's.
fn lengths(n: u8, k: u8) -> Vec<usize> {
    let right = length(n, k);
    let others = [length(1, k), length(2, k), length(3, k), length(n, 2), 0, 7, 8, 9];
    let mut all: Vec<usize> = [right, right - 1, right + 1].into_iter().chain(others).collect();
    all.iter_mut().for_each(|size| *size = LONGEST.min(*size));
    all.sort();
    all.dedup();
    all
}

/// Every phase of a station, amid a collect before and behind its own position.
fn places() -> Vec<Place> {
    let nexts = |phase: u8| if matches!(phase, 2 | 4 | 6) { vec![0, 1] } else { vec![0] };
    (0..=8).flat_map(|phase| nexts(phase).into_iter().map(move |next| Place { phase, island: 1, next })).collect()
}

/// A board of two stations: their start, an idle one, or any sound one.
fn of_two(r: &mut Random, k: u8) -> Vec<u8> {
    match r.below(5) {
        0 => starts::fresh(TOO_FEW, k),
        1 => starts::with_figures(TOO_FEW, k, &r.two_figures()),
        2 => boards::half_idle(r, TOO_FEW, k),
        3 => boards::between_collects(r, TOO_FEW, k),
        _ => boards::sound(r, TOO_FEW, k),
    }
}

/// A board whose own refusal comes before those of a proposal: 7, 8, 9, 10 and 11 in turn.
fn refused(r: &mut Random, board: &[u8]) -> Vec<Vec<u8>> {
    let with = |at: usize, byte: u8| [&board[..at], &[byte], &board[at + 1..]].concat();
    vec![
        board[..r.below(8)].to_vec(),
        with(0, r.pick(&[0, 17, 130, 255])),
        with(1, r.pick(&[0, 1, 65, 66, 255])),
        boards::resized(r, board.to_vec()),
        [board, &[0]].concat(),
        with(0, r.pick(&[1, 3, 16])),
        with(r.between(2, 7), 1),
        with(board.len() - 1 - 24 * r.below(2), 1),
    ]
}

impl Compare<'_> {
    /// Every laying: with each number of stations and islands around what is allowed, on memory of every length that matters.
    pub fn every_laying(&mut self, seed: u64) {
        let sizes = (0..=18).chain([34, 66, 130, 255]).flat_map(|n| ISLANDS.map(|k| (n, k)));
        for (n, k) in sizes {
            for size in lengths(n, k) {
                let content = pattern(&mut self.patterns, size);
                self.once(seed, Call::Lay(n, k), &content);
            }
        }
    }

    /// Every K: layings over a board of two stations, of as many stations and of others that its memory holds, and every
    /// call that leaves the number of stations as it is.
    pub fn every_k(&mut self, seed: u64) {
        let mut r = Random::new(seed);
        for k in 2..=64 {
            let board = of_two(&mut r, k);
            for (n, k) in [(2, k), (1, 2 * k + 2), (4, k / 2 - 1), (2, k - 1), (2, k + 1)] {
                self.once(seed, Call::Lay(n, k), &board);
            }
            self.calls_of_two(seed, &mut r, &board);
            self.calls_of_two(seed, &mut r, &starts::with_figures(TOO_FEW, k, &[7, 3]));
        }
    }

    /// What is asked of a board of two stations and what moves it on.
    fn calls_of_two(&mut self, seed: u64, r: &mut Random, board: &[u8]) {
        self.once(seed, Call::Check, board);
        self.once(seed, Call::Show(SHOWN), board);
        for station in STATIONS {
            self.once(seed, Call::Step(station), board);
            self.once(seed, Call::Standing(station), board);
            self.once(seed, Call::Propose(station, r.figure()), board);
        }
        let habit = habits::contended(TOO_FEW, board[1]);
        self.once(seed, Call::Run(&habit.single_steps(TOO_FEW)), board);
        self.once(seed, Call::Rounds(habit.most, &habit.to_bytes()), board);
        self.once(seed, Call::Rounds(0, &[ROUND_END; 8]), board);
        self.once(seed, Call::ProposeAll(&[1, 2].map(|station| word((station, r.figure())))), board);
    }

    /// Proposals of every station, and every short list of pairs.
    fn proposals_on(&mut self, seed: u64, board: &[u8]) {
        self.once(seed, Call::Check, board);
        STATIONS.iter().for_each(|station| self.once(seed, Call::Propose(*station, -5), board));
        lists().iter().for_each(|list| self.once(seed, Call::ProposeAll(list), board));
    }

    /// Both stations at every place there is, and other boards, on which the same proposals meet 13 and are taken.
    pub fn every_standing(&mut self, seed: u64) {
        let mut r = Random::new(seed);
        for (one, two) in places().iter().flat_map(|one| places().into_iter().map(move |two| (*one, two))) {
            let k = r.between(2, 4) as u8;
            self.proposals_on(seed, &boards::all_standing(&mut r, k, &[one, two]));
        }
        for n in [1, 3, 4, 16] {
            self.proposals_on(seed, &starts::fresh(n, 2));
            self.proposals_on(seed, &boards::half_idle(&mut r, n, 3));
        }
    }

    /// 7 to 11 before whatever else there is to refuse.
    pub fn the_boards_own_first(&mut self, seed: u64) {
        let mut r = Random::new(seed);
        let k = r.between(2, 5) as u8;
        let board = of_two(&mut r, k);
        refused(&mut r, &board).iter().for_each(|board| self.proposals_on(seed, board));
    }

    /// A board of two stations and every kind of call on it, sound and damaged.
    pub fn board_of_two(&mut self, seed: u64) {
        let mut r = Random::new(seed);
        let k = if r.once_in(8) { r.between(2, 64) } else { r.between(2, 4) } as u8;
        let board = of_two(&mut r, k);
        self.every_call(seed, &mut r, &board);
        let pairs: Vec<u64> = (0..r.below(5)).map(|_| word((r.pick(&STATIONS), r.figure()))).collect();
        self.once(seed, Call::ProposeAll(&pairs), &board);
        let damaged = boards::damaged(&mut r, board);
        self.once(seed, Call::Check, &damaged);
        self.once(seed, Call::ProposeAll(&pairs), &damaged);
        self.once(seed, Call::Propose(r.pick(&STATIONS), r.figure()), &damaged);
        self.once(seed, Call::Lay(TOO_FEW, k), &damaged);
        self.once(seed, Call::Lay(r.pick(&[1, 2, 3]), r.pick(&[1, k])), &damaged[..r.below(9)]);
    }
}
