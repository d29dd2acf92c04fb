//! Which calls are compared: every kind of call on fresh, reached, sound, damaged and hostile boards, lists of calls and
//! long runs. `round_batches` has what is made of rounds alone, `pair_batches` what is made of figures put in
//! together, `count_batches` what is made of counted steps, `filled_batches` what is made of counted registers,
//! `order_batches` what is made of figures beside each other, `left_running` stations that alone go on, `line_batches` the
//! lines of sheets, `two_stations` and `two_runs` boards of two stations and runs on them.

use crate::boards;
use crate::bytes::length;
use crate::compare::{Call, Compare};
use crate::count_batches::SIZES;
use crate::engine::SHOWN;
use crate::figure::EDGES;
use crate::filled_batches::FILLED_SIZES;
use crate::halts::ROUND_END;
use crate::lent::{pattern, Lent};
use crate::lists;
use crate::made_lists;
use crate::pairs::{word, Pair};
use crate::random::Random;
use crate::reach;
use crate::starts;

/// Room for a line that is handed back: enough, too little, and more.
pub const ROOMS: [usize; 6] = [SHOWN, SHOWN - 1, SHOWN + 1, SHOWN + 90, 1, 0];

impl Compare<'_> {
    /// Every kind of call, each on the board as it is.
    pub fn every_call(&mut self, seed: u64, r: &mut Random, board: &[u8]) {
        let n = board.first().copied().unwrap_or(1).min(17);
        for room in ROOMS {
            self.once(seed, Call::Show(room), board);
        }
        self.once(seed, Call::Check, board);
        let any = r.byte();
        for station in (0..=n + 1).chain([any]) {
            self.once(seed, Call::Step(station), board);
            self.once(seed, Call::Propose(station, r.figure()), board);
        }
        self.standings(seed, r, n, board);
        let stations = stations(r, n, 40);
        self.once(seed, Call::Run(&stations), board);
        self.once(seed, Call::Run(&[]), board);
        self.rounds_on(seed, r, n, board);
        self.pairs_on(seed, r, n, board);
        let sizes = [(n, board.get(1).copied().unwrap_or(2)), r.size(), (r.byte(), r.byte()), (any % 19, any % 67)];
        for (n, k) in sizes {
            self.once(seed, Call::Lay(n, k), board);
        }
    }

    /// How each station stands, and on some boards every number that is no station.
    fn standings(&mut self, seed: u64, r: &mut Random, n: u8, board: &[u8]) {
        let last = if r.once_in(8) { 255 } else { n + 1 };
        for station in (0..=last).chain([r.byte()]) {
            self.once(seed, Call::Standing(station), board);
        }
    }

    /// A list of single calls from a fresh board, both copies driven on.
    pub fn driven(&mut self, seed: u64) {
        let list = made_lists::make(seed);
        let mut r = Random::new(seed);
        let (mut ours, mut theirs) = self.start(seed, list.n, list.k, &list.held());
        let mut done = [false; 256];
        for call in &list.calls {
            match *call {
                // A station that has ended refuses all its further steps; a few of them are enough.
                lists::Call::Step(i) if done[i as usize] && !r.once_in(16) => 0,
                lists::Call::Step(i) => {
                    let answer = self.call(seed, Call::Step(i), &mut ours, &mut theirs);
                    done[i as usize] = matches!(answer & 0xFF, 15 | 16);
                    self.call(seed, Call::Standing(i), &mut ours, &mut theirs)
                }
                _ => self.listed(seed, call, &mut ours, &mut theirs),
            };
        }
        self.call(seed, Call::Show(SHOWN), &mut ours, &mut theirs);
    }

    /// A call of a list as the library has it.
    fn listed(&mut self, seed: u64, call: &lists::Call, ours: &mut Lent, theirs: &mut Lent) -> u64 {
        match call {
            lists::Call::Lay(n, k) => self.call(seed, Call::Lay(*n, *k), ours, theirs),
            lists::Call::Propose(i, v) => self.call(seed, Call::Propose(*i, *v), ours, theirs),
            lists::Call::ProposeAll(pairs) => {
                let words: Vec<u64> = pairs.iter().copied().map(word).collect();
                self.call(seed, Call::ProposeAll(&words), ours, theirs)
            }
            lists::Call::Step(i) => self.call(seed, Call::Step(*i), ours, theirs),
            lists::Call::Rounds(halts) => self.call(seed, Call::Rounds(halts.most, &halts.to_bytes()), ours, theirs),
        }
    }

    /// A board laid over bytes of any content. Of two stations the laying is refused, and the start made by hand.
    fn start(&mut self, seed: u64, n: u8, k: u8, held: &[Pair]) -> (Lent, Lent) {
        let content = pattern(&mut self.patterns, length(n, k));
        let (mut ours, mut theirs) = self.copies(&content);
        if self.call(seed, Call::Lay(n, k), &mut ours, &mut theirs) != 0 {
            return self.copies(&starts::proposed(n, k, held));
        }
        (ours, theirs)
    }

    /// A list from a fresh board, its steps put together to runs.
    pub fn listed_runs(&mut self, seed: u64) {
        let list = made_lists::make(seed);
        let (mut ours, mut theirs) = self.start(seed, list.n, list.k, &list.held());
        let step = |call: &lists::Call| matches!(call, lists::Call::Step(_));
        for group in list.calls.chunk_by(|a, b| step(a) && step(b)) {
            match group[0] {
                lists::Call::Step(_) => {
                    let number = |call: &lists::Call| if let lists::Call::Step(i) = call { *i } else { 0 };
                    let stations: Vec<u8> = group.iter().map(number).collect();
                    self.call(seed, Call::Run(&stations), &mut ours, &mut theirs)
                }
                _ => self.listed(seed, &group[0], &mut ours, &mut theirs),
            };
        }
    }

    /// Whole runs: from a fresh board on which all propose, or from a sound one.
    pub fn runs(&mut self, seed: u64) {
        let mut r = Random::new(seed);
        let (n, k) = r.size();
        let figures: Vec<Pair> = if r.once_in(2) { (1..=n).map(|i| (i, r.figure())).collect() } else { vec![] };
        let (mut ours, mut theirs) = if figures.is_empty() {
            self.copies(&boards::sound(&mut r, n, k))
        } else {
            self.start(seed, n, k, &starts::held(n, figures.clone()))
        };
        for (i, v) in figures {
            self.call(seed, Call::Propose(i, v), &mut ours, &mut theirs);
        }
        for _ in 0..r.between(1, 12) {
            let stations = stations(&mut r, n, 60 * n as usize);
            self.call(seed, Call::Run(&stations), &mut ours, &mut theirs);
        }
    }

    /// Runs at the most steps that are allowed, and one above.
    pub fn longest_runs(&mut self, seed: u64) {
        let mut r = Random::new(seed);
        let (n, k) = r.size();
        let board = boards::sound(&mut r, n, k);
        let list: Vec<u8> = (0..65_537).map(|_| r.between(1, n as usize) as u8).collect();
        self.once(seed, Call::Run(&list[..65_536]), &board);
        self.once(seed, Call::Run(&list), &board);
        self.once(seed, Call::Run(&list), &board[..7]);
    }

    /// A sound board that no run need reach, then driven on by single steps.
    pub fn sound_board(&mut self, seed: u64) {
        let mut r = Random::new(seed);
        let (n, k) = if r.once_in(30) { r.size() } else { (r.between(1, 5) as u8, r.between(2, 4) as u8) };
        let board = boards::sound(&mut r, n, k);
        self.every_call(seed, &mut r, &board);
        let (mut ours, mut theirs) = self.copies(&board);
        for station in stations(&mut r, n, 60) {
            self.call(seed, Call::Step(station), &mut ours, &mut theirs);
        }
    }

    pub fn damaged_board(&mut self, seed: u64) {
        let mut r = Random::new(seed);
        let (n, k) = (r.between(1, 4) as u8, r.between(2, 4) as u8);
        let board = boards::sound(&mut r, n, k);
        let board = match r.below(5) {
            0 => boards::resized(&mut r, board),
            1 => boards::hostile(&mut r),
            _ => boards::damaged(&mut r, board),
        };
        self.every_call(seed, &mut r, &board);
    }

    /// Each byte of a small board in turn, to every other value.
    pub fn each_byte(&mut self, seed: u64) {
        let mut r = Random::new(seed);
        let (n, k) = (r.between(1, 2) as u8, 2);
        let mut board = boards::sound(&mut r, n, k);
        for at in 0..board.len() {
            let kept = board[at];
            for value in (0..=255).filter(|v| *v != kept) {
                board[at] = value;
                let station = r.between(1, n as usize) as u8;
                let (rounds, pairs) = (Call::Rounds(1, &[1, ROUND_END]), [word((1, 5)), word((station, 5))]);
                for call in [Call::Check, Call::Step(station), Call::Standing(station), Call::Show(SHOWN), rounds] {
                    self.once(seed, call, &board);
                }
                self.once(seed, Call::ProposeAll(&pairs[..station as usize]), &board);
            }
            board[at] = kept;
        }
        for size in 0..=board.len() + 2 {
            let mut other = board.clone();
            other.resize(size, 170);
            for call in [Call::Check, Call::Standing(1), Call::Show(SHOWN), Call::Lay(n, k), Call::Rounds(0, &[])] {
                self.once(seed, call, &other);
            }
            self.once(seed, Call::ProposeAll(&[0, 0]), &other);
        }
    }

    /// Every call on every board that a small laying can come to, and every station left alone there.
    pub fn reached(&mut self, k: u8, figures: &[i32]) {
        for board in reach::every_board(k, figures) {
            for station in 0..=figures.len() as u8 + 1 {
                self.once(0, Call::Step(station), &board);
                self.once(0, Call::Standing(station), &board);
                self.once(0, Call::Propose(station, 1), &board);
            }
            self.once(0, Call::Check, &board);
            self.once(0, Call::Show(SHOWN), &board);
            self.once(0, Call::Rounds(1, &[1, ROUND_END, ROUND_END]), &board);
            let pairs = [1, 2, 0, 2].map(|station| word((station, 1)));
            (0..=4).for_each(|count| self.once(0, Call::ProposeAll(&pairs[..count]), &board));
            self.once(0, Call::ProposeAll(&pairs[1..]), &board);
            self.each_alone(0, &board);
        }
    }

    /// One batch of everything. It follows from its seed alone, the bytes around every buffer included.
    pub fn batch(&mut self, seed: u64) {
        self.patterns = Random::new(!seed);
        self.driven(seed);
        self.recounted(seed);
        self.left_alone(seed);
        self.of_one_figure(seed);
        for part in 0..8 {
            self.listed_runs(seed.wrapping_mul(64) + part);
            self.runs(seed.wrapping_mul(64) + part);
            self.played(seed.wrapping_mul(64) + part);
            self.spelled_out(seed.wrapping_mul(64) + part);
            self.put_in(seed.wrapping_mul(64) + part);
            self.in_any_order(seed.wrapping_mul(64) + part);
            self.all_or_none(seed.wrapping_mul(64) + part);
        }
        for part in 0..6 {
            self.sound_board(seed.wrapping_mul(64) + part);
            self.damaged_board(seed.wrapping_mul(64) + 32 + part);
            self.filled_board(seed.wrapping_mul(64) + 40 + part);
            self.counted_board(seed.wrapping_mul(64) + 48 + part);
            self.ordered_board(seed.wrapping_mul(64) + 56 + part);
        }
        for part in 0..2 {
            self.board_of_two(seed.wrapping_mul(64) + part);
            self.list_of_two(seed.wrapping_mul(64) + part);
        }
        if seed % 16 == 0 {
            self.lines(seed);
            self.much_laid(seed);
            self.words(seed);
            self.lines_of_two(seed);
            self.the_boards_own_first(seed);
        }
        if seed % 256 == 0 {
            self.large_batch(seed);
        }
    }

    /// What has so many calls that it is made now and then.
    fn large_batch(&mut self, seed: u64) {
        self.each_byte(seed);
        self.longest_runs(seed);
        self.short_lists(seed);
        self.many_rounds(seed);
        self.each_fault(seed);
        self.each_repeat(seed);
        self.each_number(seed);
        self.many_pairs(seed);
        SIZES.iter().for_each(|size| self.every_tail(seed, *size));
        self.most_counted(seed);
        self.built_runs(seed);
        FILLED_SIZES.iter().for_each(|size| self.every_filled(seed, *size));
        EDGES.iter().for_each(|figure| self.every_pair(seed, *figure));
        self.every_laying(seed);
        self.every_k(seed);
        self.every_standing(seed);
        self.circling_of_two(seed);
        self.first_of_two(seed);
        self.figures_of_two(seed);
    }
}

/// Bursts of single stations, now and then one that is not there.
fn stations(r: &mut Random, n: u8, most: usize) -> Vec<u8> {
    let mut out = Vec::new();
    let size = r.below(most + 1);
    while out.len() < size {
        let station = if r.once_in(30) { r.pick(&[0, n + 1, 99, 255]) } else { r.between(1, n.max(1) as usize) as u8 };
        let count = r.pick(&[1, 1, 2, 3, n as usize + 1, 2 * n as usize + 2]);
        out.extend(std::iter::repeat_n(station, count));
    }
    out.truncate(size);
    out
}
