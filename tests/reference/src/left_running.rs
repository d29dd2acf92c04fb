//! How many of its own steps a station needs: left alone on a board that calls reached, and beside others that propose its
//! figure. Any engine is asked by single steps, on the lists of `halted_lists`. `batches` and `tests/left_running.rs` use it.

use crate::bytes::Fields;
use crate::compare::Compare;
use crate::engine::{Engine, Reference};
use crate::halted_lists::{all_built, different, made, List, Part};
use crate::random::Random;
use crate::starts;

/// The steps of a whole pass through m, A and B.
pub fn pass(n: u8) -> usize {
    3 * (n as usize + 1)
}

/// What a station's steps answer while nobody else moves, as the call packs it, and the board behind the last of them.
#[derive(Clone, PartialEq, Eq, Debug)]
pub struct Alone {
    pub answers: Vec<u64>,
    pub board: Vec<u8>,
}

/// How a station left alone may end, by the board that it was left on.
#[derive(Clone, Copy, PartialEq, Eq, Debug)]
pub enum Ended {
    /// Nobody had taken a step: exactly one pass, on island 0.
    Untouched,
    /// An island is left above the highest one in m: a decision within three passes.
    Within,
    /// None is left: a decision or not.
    DecidedAnyway,
    Spent,
}

/// How often stations ended so, or propose one figure and decide.
#[derive(Default, Debug)]
pub struct Ends {
    pub untouched: u64,
    pub within: u64,
    /// The most steps with an island left, by the number of stations.
    pub longest: [usize; 17],
    pub decided_anyway: u64,
    pub spent: u64,
    pub of_one_figure: u64,
}

impl Ends {
    pub fn note(&mut self, n: u8, ended: Ended, steps: usize) {
        match ended {
            Ended::Untouched => self.untouched += 1,
            Ended::Within => self.within += 1,
            Ended::DecidedAnyway => self.decided_anyway += 1,
            Ended::Spent => self.spent += 1,
        }
        if matches!(ended, Ended::Untouched | Ended::Within) {
            let longest = &mut self.longest[n as usize];
            *longest = steps.max(*longest);
        }
    }
}

/// Accepted, and neither decided nor spent.
fn goes_on(answer: u64) -> bool {
    answer & 0xFF == 0 && (1..=5).contains(&(answer >> 8 & 0xFF))
}

/// *Decided* on island 0 with this figure, whatever the total.
fn decided_first(answer: u64, figure: i32) -> bool {
    answer & !0xFF00_0000 == 6 << 8 | (figure as u32 as u64) << 32
}

/// A standing that is decided on island 0 with this figure, whatever the steps.
fn stands_decided(standing: u64, figure: i32) -> bool {
    standing & !0xFFF0_0000 == 3 << 8 | (figure as u32 as u64) << 32
}

/// The highest island in m, unless nobody has taken a step.
pub fn highest_island(board: &[u8]) -> Option<u8> {
    let m = board[8..][..8 * board[0] as usize].chunks(8);
    m.filter(|register| register[0] != 0).map(|register| register[1]).max()
}

pub fn going(engine: &dyn Engine, board: &[u8]) -> Vec<u8> {
    let mut board = board.to_vec();
    (1..=board[0]).filter(|station| engine.standing(&mut board, *station) & 0xFFF == 2 << 8).collect()
}

/// Steps of one station until one does not go on; a wrong engine need not end, so one above the most is enough.
pub fn alone(engine: &dyn Engine, board: &[u8], station: u8) -> Alone {
    let (mut board, mut answers) = (board.to_vec(), Vec::new());
    while answers.len() <= 3 * pass(board[0]) && answers.last().is_none_or(|answer| goes_on(*answer)) {
        answers.push(engine.step(&mut board, station));
    }
    Alone { answers, board }
}

/// Whether a going station that was left alone on this board ended as it must.
pub fn judged(before: &[u8], station: u8, run: &Alone) -> Result<Ended, String> {
    let (n, k, steps) = (before[0], before[1], run.answers.len());
    let last = run.answers[steps - 1];
    let (ended, right) = match (highest_island(before), last & 0xFFFF) {
        (None, _) => {
            let proposal = Fields::of_bytes(before).records[station as usize - 1].proposal;
            (Ended::Untouched, steps == pass(n) && decided_first(last, proposal))
        }
        (Some(island), kind) if island + 2 <= k => (Ended::Within, kind == 6 << 8 && steps <= 3 * pass(n)),
        (Some(_), kind) if kind == 6 << 8 => (Ended::DecidedAnyway, true),
        (Some(_), kind) => (Ended::Spent, kind == 7 << 8),
    };
    if right {
        Ok(ended)
    } else {
        Err(format!("station {station} left alone, {ended:?} by the board: its step {steps} answers {last:#x}"))
    }
}

pub fn laid(engine: &dyn Engine, list: &List) -> Vec<u8> {
    starts::laid(engine, list.n, list.k, &list.held())
}

/// The steps of a part as one run.
pub fn play(engine: &dyn Engine, board: &mut [u8], part: &Part) {
    match *part {
        Part::Propose(station, figure) => drop(engine.propose(board, station, figure)),
        Part::Steps(station, count) => drop(engine.run(board, &mut vec![station; count])),
    }
}

pub fn played(engine: &dyn Engine, list: &List) -> Vec<u8> {
    let mut board = laid(engine, list);
    list.parts.iter().for_each(|part| play(engine, &mut board, part));
    board
}

/// Stations that propose one figure and no other, each with its own steps since its proposal.
struct OneFigure<'a> {
    engine: &'a dyn Engine,
    board: Vec<u8>,
    figure: i32,
    taken: Vec<Option<usize>>,
}

impl OneFigure<'_> {
    fn propose(&mut self, station: u8, figure: i32) -> Result<(), String> {
        if self.engine.propose(&mut self.board, station, figure) != 0 {
            return Ok(());
        }
        self.taken[station as usize - 1] = Some(0);
        (figure == self.figure).then_some(()).ok_or_else(|| format!("station {station} proposes {figure}"))
    }

    /// The last step of its pass decides on island 0, those before go on, and those behind are refused.
    fn step(&mut self, station: u8) -> Result<(), String> {
        let answer = self.engine.step(&mut self.board, station);
        let whole = pass(self.board[0]);
        let taken = self.taken.get_mut((station as usize).wrapping_sub(1)).and_then(Option::as_mut);
        let steps = taken.as_deref().copied();
        let right = match steps {
            None => matches!(answer, 12 | 14),
            Some(steps) if steps == whole => answer == 15,
            Some(steps) if steps + 1 == whole => decided_first(answer, self.figure),
            Some(_) => goes_on(answer),
        };
        taken.map(|taken| *taken = whole.min(*taken + 1));
        right.then_some(()).ok_or_else(|| format!("station {station} is answered {answer:#x} after {steps:?} steps"))
    }

    /// Those whose pass is over stand decided, and the others are going or idle.
    fn stand(&mut self) -> Result<u64, String> {
        let mut decided = 0;
        for (at, taken) in self.taken.iter().enumerate() {
            let standing = self.engine.standing(&mut self.board, at as u8 + 1);
            let done = *taken == Some(pass(self.board[0]));
            if done != stands_decided(standing, self.figure) {
                return Err(format!("station {} stands as {standing:#x} after {taken:?} steps", at + 1));
            }
            decided += done as u64;
        }
        Ok(decided)
    }
}

/// A list whose accepted proposals are all of one figure, and then all stations in turn until they have decided. Answers how
/// many have, and the board.
pub fn one_figure(engine: &dyn Engine, list: &List, figure: i32) -> Result<(u64, Vec<u8>), String> {
    let (board, mut taken) = (laid(engine, list), vec![None; list.n as usize]);
    list.held().iter().for_each(|(station, _)| taken[*station as usize - 1] = Some(0));
    let mut stations = OneFigure { engine, board, figure, taken };
    for part in &list.parts {
        match *part {
            Part::Propose(station, figure) => stations.propose(station, figure)?,
            Part::Steps(station, count) => (0..count).try_for_each(|_| stations.step(station))?,
        }
    }
    stations.stand()?;
    for _ in 0..=pass(list.n) {
        (0..=list.n + 1).try_for_each(|station| stations.step(station))?;
    }
    Ok((stations.stand()?, stations.board))
}

impl Compare<'_> {
    /// A list at whose stops every going station is left alone on a copy.
    pub fn left_alone(&mut self, seed: u64) {
        let mut r = Random::new(seed);
        let count = r.pick(&[1, 2, 3, 3, 3]);
        let figures = different(&mut r, count);
        let list = made(&mut r, &figures);
        let (mut ours, mut theirs) = (laid(&Reference, &list), laid(self.engine, &list));
        // Large boards are dear, and their stations stand alike.
        let seldom = if theirs.len() > 2000 { 40 } else { 2 };
        for part in &list.parts {
            play(&Reference, &mut ours, part);
            play(self.engine, &mut theirs, part);
            if r.once_in(seldom) {
                self.each_alone(seed, &theirs);
            }
        }
        self.verdict(ours == theirs, || format!("seed {seed}: the boards of a list in bursts differ"));
        self.each_alone(seed, &theirs);
    }

    /// Every going station of a board that was reached, left alone on a copy.
    pub fn each_alone(&mut self, seed: u64, board: &[u8]) {
        for station in going(self.engine, board) {
            let run = alone(self.engine, board, station);
            let same = run == alone(&Reference, board, station);
            self.verdict(same, || format!("seed {seed}: station {station} left alone goes another way"));
            let judged = judged(board, station, &run);
            if let Ok(ended) = judged {
                self.counts.ends.note(board[0], ended, run.answers.len());
            }
            self.verdict(judged.is_ok(), || format!("seed {seed}: {}", judged.unwrap_err()));
        }
    }

    /// A list with one figure, by the engine and by the reference.
    pub fn of_one_figure(&mut self, seed: u64) {
        let mut r = Random::new(seed);
        let figure = r.figure();
        let list = made(&mut r, &[figure]);
        let [ours, theirs] = [&Reference, self.engine].map(|engine| one_figure(engine, &list, figure));
        self.verdict(ours == theirs, || format!("seed {seed}: the boards of a list with one figure differ"));
        for told in [&ours, &theirs] {
            self.verdict(told.is_ok(), || format!("seed {seed}: one figure: {}", told.as_ref().unwrap_err()));
        }
        self.counts.ends.of_one_figure += theirs.map_or(0, |(decided, _)| decided);
    }

    /// Lists behind which a station needs the steps that they are built for.
    pub fn built_runs(&mut self, seed: u64) {
        for built in all_built() {
            let (n, k) = (built.list.n, built.list.k);
            let (ours, theirs) = (played(&Reference, &built.list), played(self.engine, &built.list));
            self.verdict(ours == theirs, || format!("seed {seed}: the boards of a built list differ, n {n}, K {k}"));
            let steps = alone(self.engine, &theirs, built.station).answers.len();
            self.verdict(steps == built.steps, || format!("seed {seed}: {steps} steps, not {}", built.steps));
            self.each_alone(seed, &theirs);
        }
    }
}
