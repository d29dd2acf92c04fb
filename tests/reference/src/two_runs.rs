//! Which runs of two stations are compared, and what is asked of them: "from a start like that, whatever K, the two figures and
//! the steps, all decisions made are one figure, which the start holds as the proposal of a station that took a step."
//! Starts and other boards of two stations are made by hand. `batches` and the program `boards` make these.

use crate::boards;
use crate::compare::{Call, Compare};
use crate::engine::SHOWN;
use crate::figure::EDGES;
use crate::halts::ROUND_END;
use crate::lent::{pattern, Lent};
use crate::lists::{self, Deeds};
use crate::made_lists;
use crate::model::TOO_FEW;
use crate::random::Random;
use crate::reach::{deeds, every_board_from};
use crate::sheets::{circle, lines_on};
use crate::starts::{proposed, with_figures};

/// An island of the document's second run, by single steps and by rounds.
const ISLAND: [u8; 18] = [2, 2, 2, 1, 1, 1, 2, 2, 2, 1, 1, 1, 1, 1, 1, 2, 2, 2];
const ROUNDS: [u8; 6] = [1, ROUND_END, ROUND_END, 2, ROUND_END, ROUND_END];

/// Whether all decisions are one figure that a station proposed which took a step. `Ok` has it, if there is one.
fn one_figure(deeds: &[Deeds]) -> Result<Option<i32>, String> {
    let decided: Vec<i32> = deeds.iter().filter_map(|d| d.decided).collect();
    let Some(v) = decided.first() else { return Ok(None) };
    let held = deeds.iter().any(|d| d.stepped && d.proposed == Some(*v));
    if held && decided.iter().all(|other| other == v) {
        Ok(Some(*v))
    } else {
        Err(format!("two stations: {deeds:?}"))
    }
}

impl Compare<'_> {
    fn one_figure_decided(&mut self, seed: u64, k: u8, deeds: &[Deeds]) {
        let verdict = one_figure(deeds);
        match verdict {
            Ok(Some(_)) => self.counts.two_decided += 1,
            Ok(None) => self.counts.two_undecided += 1,
            Err(_) => {}
        }
        self.verdict(verdict.is_ok(), || format!("seed {seed}: K {k}: {}", verdict.unwrap_err()));
    }

    /// A list of steps, rounds and refused calls from a start, by the engine alone, on any number of islands.
    pub fn list_of_two(&mut self, seed: u64) {
        let mut r = Random::new(seed);
        let k = if r.once_in(4) { r.between(2, 64) } else { r.between(2, 4) } as u8;
        let played = lists::play(self.engine, &made_lists::of_size(&mut r, TOO_FEW, k));
        self.one_figure_decided(seed, k, &played.deeds);
        self.verdict(played.wrong().is_none(), || {
            format!("seed {seed}: a list of two stations: {}", played.wrong().unwrap_or_default())
        });
    }

    /// Every board that a start comes to by whatever steps, as the engine takes them, and each of these steps.
    pub fn every_run_of_two(&mut self, k: u8, figures: [i32; 2]) {
        let engine = self.engine;
        let start = with_figures(TOO_FEW, k, &figures);
        for board in every_board_from(start, |board, station| engine.step(board, station) & 0xFF == 0) {
            self.one_figure_decided(0, k, &deeds(&board));
            (0..=TOO_FEW + 1).for_each(|station| self.once(0, Call::Step(station), &board));
        }
    }

    /// The document's run with 7 and 3 on every number of islands: both circle over all of them and are spent on the last.
    pub fn circling_of_two(&mut self, seed: u64) {
        for k in 2..=64 {
            let start = with_figures(TOO_FEW, k, &[7, 3]);
            let line = format!("(steps {})", circle(TOO_FEW as usize, 1, k as usize));
            let (steps, rounds) = (ISLAND.repeat(k as usize), ROUNDS.repeat(k as usize));
            let calls = [Call::Run(&steps), Call::Rounds(1, &rounds), Call::Line(line.as_bytes(), start.len(), SHOWN)];
            for call in calls {
                let (mut ours, mut theirs) = self.copies(&start);
                self.call(seed, call, &mut ours, &mut theirs);
                self.spent_at(seed, k, &mut theirs);
            }
            let (mut ours, mut theirs) = self.copies(&start);
            for station in &steps {
                self.call(seed, Call::Step(*station), &mut ours, &mut theirs);
            }
            self.spent_at(seed, k, &mut theirs);
        }
    }

    /// Both are spent on the last island with the figure that they began with, and took every step there is.
    fn spent_at(&mut self, seed: u64, k: u8, board: &mut Lent) {
        let (island, steps) = (k as u64 - 1, 9 * k as u64);
        let spent = |figure: u64| 4 << 8 | island << 12 | steps << 20 | figure << 32;
        let standing = [1, 2].map(|station| self.engine.standing(board.content_mut(), station));
        self.verdict(standing == [spent(7), spent(3)], || format!("seed {seed}: K {k}: {standing:x?}"));
    }

    /// One station runs first, on every number of islands, whether or not the other has proposed: it decides its own figure on
    /// island 0 with its ninth step.
    pub fn first_of_two(&mut self, seed: u64) {
        for k in 2..=64 {
            for held in [&[(1, 7)][..], &[(2, 3)], &[(1, 7), (2, 3)], &[(2, 3), (1, 7)]] {
                let (station, figure) = held[0];
                let (mut ours, mut theirs) = self.copies(&proposed(TOO_FEW, k, held));
                self.call(seed, Call::Run(&[station; 9]), &mut ours, &mut theirs);
                let standing = self.engine.standing(theirs.content_mut(), station);
                let decided = 3 << 8 | 9 << 20 | (figure as u64) << 32;
                self.verdict(standing == decided, || format!("seed {seed}: K {k}: {held:?}: {standing:x}"));
            }
        }
    }

    /// Figures that stand beside each other in the order meet in m, and again in A, the lower one at either station.
    pub fn figures_of_two(&mut self, seed: u64) {
        let near = |width: usize| EDGES.windows(width).map(move |few| [few[0], few[width - 1]]);
        for [low, high] in near(2).chain(near(3)) {
            for (first, figures) in [(1, [low, high]), (2, [high, low])] {
                let start = with_figures(TOO_FEW, 2, &figures);
                let ahead = [first, first, first, 3 - first, 3 - first, 3 - first, 1, 2, 1, 2, 1, 2];
                for steps in [&[1, 2, 1, 2, 1, 2][..], &ahead, &[1, 2].repeat(18)] {
                    self.once(seed, Call::Run(steps), &start);
                }
            }
        }
    }

    /// Lines of a sheet on memory that begins with a board of two stations, which no sheet has laid. A line that lays
    /// another board goes on there.
    pub fn lines_of_two(&mut self, seed: u64) {
        let mut r = Random::new(seed);
        let k = if r.once_in(8) { r.between(2, 64) } else { r.between(2, 4) } as u8;
        let mut memory = if r.once_in(3) {
            boards::half_idle(&mut r, TOO_FEW, k)
        } else {
            with_figures(TOO_FEW, k, &r.two_figures())
        };
        let mut laid = memory.len();
        let behind = r.pick(&[0, 0, 1, 400, 17_000]);
        memory.extend(pattern::<u8>(&mut r, behind));
        let (mut ours, mut theirs) = self.copies(&memory);
        for line in lines_on(&mut r, TOO_FEW as usize, 24) {
            let answer = self.call(seed, Call::Line(&line, laid, SHOWN), &mut ours, &mut theirs);
            laid = (answer >> 16) as usize;
        }
    }
}
