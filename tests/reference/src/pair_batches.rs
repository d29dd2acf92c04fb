//! Which figures are put in together, to compare: on boards of every kind, with lists of every kind, and beside single
//! proposals.

use crate::boards;
use crate::bytes::Fields;
use crate::compare::{Call, Compare};
use crate::engine::SHOWN;
use crate::line_batches::printed;
use crate::pair_lists::{idle, lines, odd, some, with_figures, words};
use crate::pairs::{named_twice, word, Pair};
use crate::random::Random;
use crate::starts::fresh;

fn packed(pairs: &[Pair]) -> Vec<u64> {
    pairs.iter().copied().map(word).collect()
}

/// A fresh board, or a sound one on which some are idle.
fn start(r: &mut Random, (n, k): (u8, u8)) -> Vec<u8> {
    if r.once_in(3) {
        fresh(n, k)
    } else {
        boards::half_idle(r, n, k)
    }
}

/// Seven stations: the odd ones are idle, 2 is going, 4 has decided and 6 is spent.
fn mixed() -> Vec<u8> {
    let mut f = Fields::of_bytes(&fresh(7, 2));
    for (station, phase) in [(2, 1), (4, 7), (6, 8)] {
        f.records[station - 1].phase = phase;
    }
    f.to_bytes()
}

impl Compare<'_> {
    /// Lists of every kind, each on the board as it is.
    pub fn pairs_on(&mut self, seed: u64, r: &mut Random, n: u8, board: &[u8]) {
        let idle = idle(board);
        self.once(seed, Call::ProposeAll(&[]), board);
        let station = r.pick(&[0, 1, n, n + 1, 16, 17, 255]);
        let [one, two] = [(); 2].map(|()| word((station, r.figure())));
        for list in [&[one][..], &[one, one], &[one, two]] {
            self.once(seed, Call::ProposeAll(list), board);
        }
        for _ in 0..4 {
            self.once(seed, Call::ProposeAll(&words(r, n, &idle)), board);
        }
    }

    /// A board driven on by lists of pairs, single proposals and steps.
    pub fn put_in(&mut self, seed: u64) {
        let mut r = Random::new(seed);
        let size = r.size();
        let board = start(&mut r, size);
        let n = board[0];
        let (mut ours, mut theirs) = self.copies(&board);
        for _ in 0..r.between(1, 10) {
            let station = r.between(1, n as usize) as u8;
            match r.below(5) {
                0 => drop(self.call(seed, Call::Propose(station, r.figure()), &mut ours, &mut theirs)),
                1 => drop(self.call(seed, Call::Run(&vec![station; r.between(1, 9)]), &mut ours, &mut theirs)),
                _ => {
                    let list = words(&mut r, n, &idle(ours.content()));
                    self.call(seed, Call::ProposeAll(&list), &mut ours, &mut theirs);
                }
            }
        }
        self.call(seed, Call::Show(SHOWN), &mut ours, &mut theirs);
    }

    /// Pairs that are accepted, beside the same ones proposed one by one: as written, backwards, in any order, and in lines
    /// of a sheet. All by the engine itself.
    pub fn in_any_order(&mut self, seed: u64) {
        let mut r = Random::new(seed);
        let size = r.laid_size();
        let board = start(&mut r, size);
        let pairs = some(&mut r, &idle(&board));
        let (mut together, mut by_lines) = (board.clone(), board.clone());
        let answer = self.engine.propose_all(&mut together, &mut packed(&pairs));
        let backwards: Vec<Pair> = pairs.iter().rev().copied().collect();
        let mut any = pairs.clone();
        r.shuffle(&mut any);
        let engine = self.engine;
        let alike = [&pairs, &backwards, &any].iter().all(|order| {
            let mut single = board.clone();
            order.iter().all(|(i, v)| engine.propose(&mut single, *i, *v) == 0) && single == together
        });
        let told = |line: &String| format!("(proposed {})", line.matches(" (").count());
        let lines = lines(&pairs).iter().all(|line| printed(engine, line, &mut by_lines) == told(line));
        let same = answer == 0 && alike && lines && by_lines == together;
        self.verdict(same, || {
            format!("seed {seed}: {pairs:?} and single proposals: {answer}, alike {alike}, lines {lines}, on {board:?}")
        });
    }

    /// A list with faults: it alters nothing, as a line too, and where no station is named twice it is refused as the first
    /// of its single proposals that is refused. All by the engine itself.
    pub fn all_or_none(&mut self, seed: u64) {
        let mut r = Random::new(seed);
        let size = r.size();
        let board = start(&mut r, size);
        let n = board[0];
        let pairs = odd(&mut r, n, &idle(&board), &[0, n + 1, 17, 99]);
        let [mut together, mut single, mut by_line] = [(); 3].map(|()| board.clone());
        let answer = self.engine.propose_all(&mut together, &mut packed(&pairs));
        let alone = pairs.iter().map(|(i, v)| self.engine.propose(&mut single, *i, *v)).find(|number| *number != 0);
        let expected = if named_twice(&pairs) { 20 } else { alone.unwrap_or(0) };
        let text = lines(&pairs);
        let as_line = text.len() != 1 || {
            let told = if answer == 0 { format!("(proposed {})", pairs.len()) } else { format!("(refused {answer})") };
            printed(self.engine, &text[0], &mut by_line) == told && by_line == together
        };
        let kept = answer == 0 || together == board;
        self.verdict(answer == expected && kept && as_line, || {
            format!("seed {seed}: {pairs:?}: {answer} and not {expected}, kept {kept}, line {as_line}, on {board:?}")
        });
    }

    /// One fault, and two, at every place of a list; and a repeat behind a fault, before it and around it.
    pub fn each_fault(&mut self, seed: u64) {
        const FAULTS: [u8; 6] = [0, 8, 255, 2, 4, 6];
        let mut r = Random::new(seed);
        let board = mixed();
        for (first, at) in FAULTS.iter().flat_map(|fault| (0..=4).map(move |at| (*fault, at))) {
            let mut stations = vec![1, 3, 5, 7];
            r.shuffle(&mut stations);
            stations.insert(at, first);
            let again = r.pick(&stations);
            for (second, place) in FAULTS.iter().chain([&again]).flat_map(|s| (0..=5).map(move |at| (*s, at))) {
                let mut two = stations.clone();
                two.insert(place, second);
                self.once(seed, Call::ProposeAll(&packed(&with_figures(&mut r, &two))), &board);
            }
            self.once(seed, Call::ProposeAll(&packed(&with_figures(&mut r, &stations))), &board);
        }
    }

    /// A station named twice at every two places of a list, with one figure and with two.
    pub fn each_repeat(&mut self, seed: u64) {
        let mut r = Random::new(seed);
        let board = fresh(16, 2);
        for (from, to) in (0..20).flat_map(|to| (0..to).map(move |from| (from, to))) {
            let mut stations: Vec<u8> = if r.once_in(2) { (0..20).collect() } else { (236..=255).collect() };
            r.shuffle(&mut stations);
            stations[to] = stations[from];
            let mut pairs = with_figures(&mut r, &stations);
            self.once(seed, Call::ProposeAll(&packed(&pairs)), &board);
            pairs[to] = pairs[from];
            self.once(seed, Call::ProposeAll(&packed(&pairs)), &board);
        }
    }

    /// Every number as a station: twice, and beside those that differ from it in a bit or stand a power of two away.
    pub fn each_number(&mut self, seed: u64) {
        let board = mixed();
        for station in 0..=255u8 {
            let one = word((station, 5));
            self.once(seed, Call::ProposeAll(&[one]), &board);
            self.once(seed, Call::ProposeAll(&[one, one | 7 << 32]), &board);
            for bit in 0..8 {
                let others = [station ^ 1 << bit, station.wrapping_add(1 << bit)];
                others.iter().for_each(|two| self.once(seed, Call::ProposeAll(&[one, word((*two, 6))]), &board));
            }
        }
        for bit in 0..64 {
            let one = word((1, 5));
            for list in [&[one ^ 1 << bit][..], &[one, one ^ 1 << bit], &[word((3, 5)) ^ 1 << bit, one ^ 1 << bit]] {
                self.once(seed, Call::ProposeAll(list), &board);
            }
        }
    }

    /// More pairs than a board has stations: all 256 numbers once, from each of them on, and with each of them once more;
    /// lists in which a repeat stands far behind; as many as 16 bits do not count.
    pub fn many_pairs(&mut self, seed: u64) {
        let mut r = Random::new(seed);
        let (mixed, fresh) = (mixed(), fresh(16, 2));
        let board = boards::half_idle(&mut r, 16, 2);
        for station in 0..=255u8 {
            let mut all: Vec<u8> = (0..=255).map(|at: u8| at.wrapping_add(station)).collect();
            for board in [&mixed, &fresh, &board] {
                self.once(seed, Call::ProposeAll(&packed(&with_figures(&mut r, &all))), board);
            }
            r.shuffle(&mut all);
            self.once(seed, Call::ProposeAll(&packed(&with_figures(&mut r, &all))), &fresh);
            all.push(station);
            self.once(seed, Call::ProposeAll(&packed(&with_figures(&mut r, &all))), &fresh);
        }
        for count in [16, 17, 32, 33, 64, 65, 128, 255, 256, 257, 300, 65_536, 65_537, 70_000] {
            let mut all: Vec<u8> = (0..count).map(|at: usize| (at as u8).wrapping_add(1)).collect();
            self.once(seed, Call::ProposeAll(&packed(&with_figures(&mut r, &all))), &fresh);
            self.once(seed, Call::ProposeAll(&packed(&with_figures(&mut r, &all))), &fresh[1..]);
            all[count - 1] = 1;
            self.once(seed, Call::ProposeAll(&packed(&with_figures(&mut r, &all))), &fresh);
        }
    }
}
