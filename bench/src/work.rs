//! What is measured: boards and lists of stations for each n and K, and the calls made on them.

use reference::bytes::length;
use reference::engine::{Engine, Reference, SHOWN};
use reference::habits::{self, rising};
use reference::pairs::{self, Pair};

pub const SIZES: [(u8, u8); 9] = [(1, 2), (1, 8), (1, 64), (3, 2), (3, 8), (3, 64), (16, 2), (16, 8), (16, 64)];

pub const LONGEST_RUN: usize = 65_536;

/// As many rounds as a line holds, and as many pairs.
pub const MOST_ROUNDS: usize = 81;
pub const MOST_PAIRS: usize = 41;

/// One call. Nothing is the measuring's own price, which is taken off every other one.
#[derive(Clone)]
pub enum Call {
    Nothing,
    Lay(u8, u8),
    /// Figures put in together, and one call after the other.
    ProposeAll(Vec<u64>),
    ProposeEach(Vec<Pair>),
    Step(u8),
    Run(Vec<u8>),
    /// Rounds in which nobody is suspended.
    Rounds(Vec<u8>),
    Line(Vec<u8>),
    /// One line after the other.
    Lines(Vec<Vec<u8>>),
    Check,
    Show,
}

#[derive(Clone)]
pub struct Case {
    pub name: String,
    /// Whether it goes under the clock too.
    pub timed: bool,
    pub board: Vec<u8>,
    pub call: Call,
}

impl Case {
    fn new(name: &str, board: &[u8], call: Call) -> Case {
        Case { name: name.to_string(), timed: true, board: board.to_vec(), call }
    }

    pub fn made(&mut self, engine: &dyn Engine, board: &mut [u8], line: &mut [u8; SHOWN]) -> u64 {
        match &mut self.call {
            Call::Nothing => 0,
            Call::Lay(n, k) => engine.lay(board, *n, *k) as u64,
            Call::ProposeAll(words) => engine.propose_all(board, words) as u64,
            Call::ProposeEach(pairs) => pairs.iter().fold(0, |_, (i, v)| engine.propose(board, *i, *v) as u64),
            Call::Step(station) => engine.step(board, *station),
            Call::Run(stations) => engine.run(board, stations),
            Call::Rounds(named) => engine.rounds(board, 0, named),
            Call::Line(text) => engine.play_line(text, board.len(), board, line),
            Call::Lines(texts) => texts.iter_mut().fold(0, |_, text| engine.play_line(text, board.len(), board, line)),
            Call::Check => engine.check(board) as u64,
            Call::Show => engine.show(board, line) as u64,
        }
    }
}

/// The longest list of which every step is taken. A station alone decides on its first island.
pub fn contended(n: u8, k: u8) -> Vec<u8> {
    let mut list = habits::contended(n, k).single_steps(n);
    if n == 1 {
        list.truncate(6);
    }
    list
}

/// All stations in turn.
fn in_turn(n: u8, count: usize) -> impl Iterator<Item = u8> {
    (1..=n).cycle().take(count)
}

pub fn after(board: &[u8], stations: &[u8]) -> Vec<u8> {
    let mut board = board.to_vec();
    assert_eq!(Reference.run(&mut board, &mut stations.to_vec()), (stations.len() as u64) << 8, "every step is taken");
    board
}

/// A step inside a run is a run of one station less a run of none.
fn step_in_run(name: &str, board: &[u8], station: u8) -> [Case; 2] {
    let none = format!("{name}, none");
    [Case::new(name, board, Call::Run(vec![station])), Case::new(&none, board, Call::Run(vec![]))]
}

/// The kinds of step, made by station 1 alone, so that they meet the same at every n and K.
fn kinds(n: u8, k: u8) -> Vec<Case> {
    let fresh = rising(n, k);
    let mut cases = Vec::new();
    for (at, array) in ["m", "A", "B"].iter().enumerate() {
        let begun = at * (n as usize + 1);
        let mut kind = |name: &str, steps: usize| {
            let board = after(&fresh, &vec![1; begun + steps]);
            cases.extend(step_in_run(&format!("{name} {array}"), &board, 1));
        };
        kind("write", 0);
        if n > 2 {
            kind("read own", 1);
            kind("read empty", 2);
        }
        kind("last read", n as usize);
    }
    cases
}

/// A line of rounds and a line of the same single steps, by what they are called in the tables. Both leave one board.
fn line_pair(name: &str, board: &[u8], lines: [String; 2]) -> [Case; 2] {
    let left = lines.clone().map(|line| {
        let (mut board, mut printed) = (board.to_vec(), [0; SHOWN]);
        Reference.play_line(&mut line.into_bytes(), board.len(), &mut board, &mut printed);
        assert!(!printed.starts_with(b"(refused"));
        board
    });
    assert!(left[0] == left[1], "{name}: the lines differ in what they do");
    let [rounds, steps] = lines.map(|line| Call::Line(line.into_bytes()));
    [Case::new(&format!("{name}, rounds"), board, rounds), Case::new(&format!("{name}, steps"), board, steps)]
}

/// Nobody suspended: all settle in a few rounds, and the others find them done.
fn settling_lines(n: u8, k: u8) -> [Case; 2] {
    let turns: String = (1..=n).map(|station| format!(" (times {} {station})", n + 1)).collect();
    let rounds = format!("(rounds 0{})", " ()".repeat(MOST_ROUNDS));
    line_pair("settling", &rising(n, k), [rounds, format!("(steps (times {MOST_ROUNDS}{turns}))")])
}

/// Three stations that one suspended station a round keeps from deciding: every step is taken.
fn circling_lines(k: u8) -> [Case; 2] {
    let mut board = laid(3, k);
    (1..=3).for_each(|station| assert_eq!(Reference.propose(&mut board, station, (station == 3) as i32), 0));
    assert_eq!(Reference.rounds(&mut board, 1, &mut [255, 1, 255, 2, 255]), 3 << 16);
    let turns: String = [1, 2, 2, 3, 1, 2, 3, 1, 3].map(|station| format!(" (times 4 {station})")).concat();
    let rounds = format!("(rounds 1{})", " (3) (1) () (2)".repeat(16));
    line_pair("circling", &board, [rounds, format!("(steps (times 16{turns}))")])
}

/// The lines of rounds that are measured, for one size each.
fn round_lines(n: u8, k: u8) -> Vec<Case> {
    match (n, k) {
        (16, 64) => settling_lines(n, k).to_vec(),
        (3, 64) => circling_lines(k).to_vec(),
        _ => vec![],
    }
}

fn laid(n: u8, k: u8) -> Vec<u8> {
    let mut board = vec![0; length(n, k)];
    assert_eq!(Reference.lay(&mut board, n, k), 0);
    board
}

/// Every station's figure, of nine characters each, so that a line holds sixteen.
fn figures(n: u8) -> Vec<Pair> {
    (1..=n).map(|station| (station, -10_000_000 - station as i32)).collect()
}

/// All figures in one call, no figure in one, and a call for each station.
fn together(n: u8, k: u8) -> [Case; 3] {
    let (board, all) = (laid(n, k), figures(n));
    let words: Vec<u64> = all.iter().copied().map(pairs::word).collect();
    let [mut one, mut other] = [board.clone(), board.clone()];
    assert_eq!(Reference.propose_all(&mut one, &mut words.clone()), 0);
    all.iter().for_each(|(i, v)| assert_eq!(Reference.propose(&mut other, *i, *v), 0));
    assert!(one == other, "both leave one board");
    [
        Case::new("together", &board, Call::ProposeAll(words)),
        Case::new("together, none", &board, Call::ProposeAll(vec![])),
        Case::new("one by one", &board, Call::ProposeEach(all)),
    ]
}

/// The same in lines of a sheet; and as many pairs as a line holds, which are refused, beside the shortest single proposal
/// that is.
fn pair_lines(n: u8, k: u8) -> Vec<Case> {
    let (board, all) = (laid(n, k), figures(n));
    let single = all.iter().map(|(i, v)| format!("(propose {i} {v})").into_bytes()).collect();
    let many = pairs::line(&(0..MOST_PAIRS).map(|at| (at as u8 % 10, 0)).collect::<Vec<Pair>>());
    assert_eq!(many.len(), reference::sheet::LONGEST_LINE);
    vec![
        Case::new("accepted, pairs", &board, Call::Line(pairs::line(&all).into_bytes())),
        Case::new("accepted, single", &board, Call::Lines(single)),
        Case::new("refused, pairs", &board, Call::Line(many.into_bytes())),
        Case::new("refused, single", &board, Call::Line(b"(propose 0 0)".to_vec())),
    ]
}

/// From the middle on every station reads all of A but its last register, so that all but the last station have passed
/// their own: there the test of a board compares figures.
fn amid(middle: &[u8], n: u8) -> Vec<u8> {
    let mut steps = vec![1; n as usize - 1];
    (2..=n).for_each(|station| steps.extend(vec![station; n as usize]));
    after(middle, &steps)
}

/// Every call that is measured for one n and K.
pub fn cases(n: u8, k: u8) -> Vec<Case> {
    let fresh = rising(n, k);
    let taken = contended(n, k);
    // Half of the list ends an island; from there every station goes through m, and the first one has written to A.
    let half = if n == 1 { 3 } else { taken.len() / 2 + n as usize * (n as usize + 1) + 1 };
    let middle = after(&fresh, &taken[..half]);
    let end = after(&fresh, &taken);
    let full: Vec<u8> = taken.iter().copied().chain(in_turn(n, LONGEST_RUN - taken.len())).collect();
    let refused = Call::Run(in_turn(n, LONGEST_RUN).collect());
    let mut cases = vec![
        Case::new("nothing", &fresh, Call::Nothing),
        Case::new("run", &fresh, Call::Run(full)),
        Case::new("taken", &fresh, Call::Run(taken.clone())),
        Case::new("taken, none", &fresh, Call::Run(vec![])),
        Case::new("refused", &end, refused),
        Case::new("refused, none", &end, Call::Run(vec![])),
        Case::new("done", &end, Call::Rounds(vec![255; MOST_ROUNDS])),
        Case::new("done, none", &end, Call::Rounds(vec![])),
        Case::new("first step", &fresh, Call::Step(1)),
        Case::new("middle step", &middle, Call::Step(taken[half])),
        Case::new("lay", &end, Call::Lay(n, k)),
        Case::new("show", &middle, Call::Show),
        Case::new("check", &middle, Call::Check),
        Case::new("check fresh", &fresh, Call::Check),
        Case::new("check end", &end, Call::Check),
    ];
    if n > 1 {
        cases.push(Case::new("check amid", &amid(&middle, n), Call::Check));
    }
    cases.extend(round_lines(n, k));
    cases.extend(together(n, k).into_iter().chain(pair_lines(n, k)).map(|case| Case { timed: false, ..case }));
    cases.extend(kinds(n, k).into_iter().map(|case| Case { timed: false, ..case }));
    cases
}
