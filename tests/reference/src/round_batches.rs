//! Which rounds are compared: on boards of every kind, with lists of every kind, and beside their own single steps.

use crate::boards;
use crate::compare::{Call, Compare};
use crate::engine::SHOWN;
use crate::habits;
use crate::halts::ROUND_END;
use crate::line_batches;
use crate::pairs::Pair;
use crate::random::Random;
use crate::starts;

/// The bytes at which a list's meaning changes, for a board of two stations.
const BYTES: [u8; 6] = [0, 1, 2, 3, 254, ROUND_END];

impl Compare<'_> {
    /// Rounds of every kind, each on the board as it is.
    pub fn rounds_on(&mut self, seed: u64, r: &mut Random, n: u8, board: &[u8]) {
        for named in [&[][..], &[ROUND_END], &[1], &[ROUND_END; 3]] {
            self.once(seed, Call::Rounds(r.pick(&[0, 1, 1, 255]), named), board);
        }
        for _ in 0..4 {
            let (most, named) = habits::list(r, n, 5);
            self.once(seed, Call::Rounds(most, &named), board);
        }
    }

    /// A board on which rounds can be played, driven on by rounds, late proposals, whole turns and now and then a
    /// single step, after which rounds are refused until that station's collect is over.
    pub fn played(&mut self, seed: u64) {
        let mut r = Random::new(seed);
        let (n, k) = r.size();
        let (mut ours, mut theirs) = self.copies(&start(&mut r, n, k));
        for _ in 0..r.between(1, 14) {
            let station = r.between(1, n as usize) as u8;
            match r.below(8) {
                0 => drop(self.call(seed, Call::Propose(station, r.figure()), &mut ours, &mut theirs)),
                1 => drop(self.call(seed, Call::Run(&vec![station; n as usize + 1]), &mut ours, &mut theirs)),
                2 if r.once_in(4) => drop(self.call(seed, Call::Step(station), &mut ours, &mut theirs)),
                _ => {
                    let (most, named) = habits::list(&mut r, n, 9);
                    self.call(seed, Call::Rounds(most, &named), &mut ours, &mut theirs);
                }
            }
        }
        self.call(seed, Call::Show(SHOWN), &mut ours, &mut theirs);
    }

    /// Rounds beside a run of their single steps, and a line of rounds beside lines of steps: all by the engine itself.
    pub fn spelled_out(&mut self, seed: u64) {
        let mut r = Random::new(seed);
        let (n, k) = r.size();
        let board = start(&mut r, n, k);
        let mut halts = habits::made(&mut r, n, 24);
        while halts.to_line().len() > crate::sheet::LONGEST_LINE {
            halts.rounds.pop();
        }
        let [mut by_rounds, mut by_line, mut by_run, mut by_steps] = [(); 4].map(|()| board.clone());
        let answer = self.engine.rounds(&mut by_rounds, halts.most, &mut halts.to_bytes());
        let ran = self.engine.run(&mut by_run, &mut halts.single_steps(n));
        let printed = line_batches::printed(self.engine, &halts.to_line(), &mut by_line);
        for line in habits::steps_lines(&halts, n) {
            line_batches::printed(self.engine, &line, &mut by_steps);
        }
        let (played, decided) = (halts.rounds.len() as u64, decided(&by_run));
        let answers = answer == played << 16 | decided << 8 && printed == format!("(played {played} {decided})");
        let boards = [by_rounds, by_line, by_steps].iter().all(|other| *other == by_run);
        self.verdict(answers && boards && ran & 0xFF == 0, || {
            let line = halts.to_line();
            format!("seed {seed}: {line} and its single steps: {answer:#x}, {printed}, the boards are alike: {boards}")
        });
    }

    /// Every list of up to three bytes on boards of two stations, and every list of one byte.
    pub fn short_lists(&mut self, seed: u64) {
        let mut r = Random::new(seed);
        let board = start(&mut r, 2, 2);
        for most in [0, 1, 2, 255] {
            for (one, two, three) in triples() {
                let all = [one, two, three];
                let lists = [&all[..], &all[..2], &all[..1], &[]];
                lists.iter().for_each(|named| self.once(seed, Call::Rounds(most, named), &board));
            }
        }
        for byte in 0..=255 {
            self.once(seed, Call::Rounds(1, &[byte]), &board);
            self.once(seed, Call::Rounds(byte, &[1, 2, ROUND_END]), &board);
        }
    }

    /// More rounds than a line holds, and than 16 bits count; a fault in the last one is found before the first is
    /// played.
    pub fn many_rounds(&mut self, seed: u64) {
        let mut r = Random::new(seed);
        let (n, k) = (r.between(1, 4) as u8, r.between(2, 4) as u8);
        let board = start(&mut r, n, k);
        for count in [254, 255, 256, 257, 65_535, 65_536, 65_537] {
            let mut named = vec![ROUND_END; count];
            self.once(seed, Call::Rounds(0, &named), &board);
            named.push(1);
            self.once(seed, Call::Rounds(0, &named), &board);
            self.once(seed, Call::Rounds(1, &named), &board);
            named.push(n + 1);
            self.once(seed, Call::Rounds(2, &named), &board);
        }
    }
}

fn triples() -> impl Iterator<Item = (u8, u8, u8)> {
    BYTES.iter().flat_map(|a| BYTES.iter().flat_map(|b| BYTES.iter().map(|c| (*a, *b, *c))))
}

/// Nobody stands amid a collect: a fresh board on which some have proposed, or any sound one.
fn start(r: &mut Random, n: u8, k: u8) -> Vec<u8> {
    if r.once_in(2) {
        return boards::between_collects(r, n, k);
    }
    let one_above = r.once_in(2);
    let mut pairs: Vec<Pair> = (1..).zip(habits::figures(r, n, one_above)).collect();
    pairs.retain(|_| one_above || !r.once_in(8));
    starts::proposed(n, k, &pairs)
}

/// How many records are in phase 7.
fn decided(board: &[u8]) -> u64 {
    crate::bytes::Fields::of_bytes(board).records.iter().filter(|r| r.phase == 7).count() as u64
}
