//! An engine of which one thing is wrong: the calls of the second implementation with each refusal of layings and proposals
//! written out once more, as a list of tests in their order.

use crate::fault::{Asked, Fault, Lay, Pairs, Step, Test};
use crate::lines::LineFault;
use reference::bytes::{length, Fields};
use reference::calls;
use reference::engine::{Engine, Reference, SHOWN};
use reference::halts::Halts;
use reference::pairs::{named_twice, of_words, Pair};
use reference::sheet::{self, Form};
use reference::starts;

pub struct Faulty {
    pub fault: Fault,
    pub line: LineFault,
}

/// The number of the first test that holds, 0 if none does.
fn first(tests: &[(u8, bool)]) -> u8 {
    tests.iter().find(|(_, holds)| *holds).map_or(0, |(number, _)| *number)
}

fn is_two(board: &[u8]) -> bool {
    board.first() == Some(&2)
}

fn is_sound_two(board: &[u8]) -> bool {
    is_two(board) && calls::check(board).is_ok()
}

/// 7 to 10 of a laying.
fn lay_refusal(fault: Fault, size: usize, n: u8, k: u8) -> u8 {
    let number = if let Fault::Lays(Lay::TwoIs(number)) = fault { number } else { 8 };
    let refused = match fault {
        Fault::Lays(Lay::TakesTwo) => false,
        Fault::Lays(Lay::TwoIslandsOnly) => n == 2 && k == 2,
        Fault::Lays(Lay::MoreIslandsOnly) => n == 2 && k != 2,
        Fault::Lays(Lay::Refuses(other)) => n == 2 || n == other,
        Fault::Lays(Lay::RefusesEven) => n % 2 == 0,
        Fault::Lays(Lay::RefusesUpToTwo) => n <= 2,
        _ => n == 2,
    };
    let taken = if let Fault::Lays(Lay::Takes(other)) = fault { n == other } else { false };
    let two = (number, refused);
    let (seven, eight) = ((7, size < 8), (8, !(1..=16).contains(&n) && !taken));
    let (nine, ten) = ((9, !(2..=64).contains(&k)), (10, size != length(n, k)));
    match fault {
        Fault::Lays(Lay::TwoBehind9) => first(&[seven, eight, nine, two, ten]),
        Fault::Lays(Lay::TwoBehind10) => first(&[seven, eight, nine, ten, two]),
        Fault::Lays(Lay::TwoBefore7) => first(&[two, seven, eight, nine, ten]),
        _ => first(&[seven, eight, two, nine, ten]),
    }
}

/// What a laying writes that is refused.
fn lay_altered(fault: Fault, board: &mut [u8], n: u8, k: u8) {
    match fault {
        Fault::Lays(Lay::Clears) if n == 2 => board.fill(0),
        Fault::Lays(Lay::WritesTheHead) if n == 2 && board.len() >= 2 => board[..2].copy_from_slice(&[n, k]),
        Fault::Lays(Lay::LaysThree) if n == 2 && board.len() >= 2 => {
            board.fill(0);
            board[..2].copy_from_slice(&[3, k]);
        }
        _ => {}
    }
}

/// 12, 22 and 13 of one station.
fn station_refusal(test: Option<Test>, f: &Fields, station: u8) -> u8 {
    let there = (1..=f.n).contains(&station);
    let idle = there && f.records[station as usize - 1].phase == 0;
    let all = |holds: fn(u8) -> bool| f.records.iter().all(|record| holds(record.phase));
    let two = match test {
        Some(Test::Taken) => false,
        Some(Test::NotIdleOnly) => f.n == 2 && !idle,
        Some(Test::FirstStationOnly) => f.n == 2 && station == 1,
        Some(Test::SecondStationOnly) => f.n == 2 && station == 2,
        Some(Test::FreshOnly) => f.n == 2 && all(|phase| phase == 0),
        Some(Test::UntilOneEnds) => f.n == 2 && all(|phase| phase < 7),
        Some(Test::TwoIslandsOnly) => f.n == 2 && f.k == 2,
        Some(Test::MoreIslandsOnly) => f.n == 2 && f.k != 2,
        Some(Test::On(other)) => f.n == 2 || f.n == other,
        Some(Test::OnEven) => f.n % 2 == 0,
        _ => f.n == 2,
    };
    let number = if let Some(Test::Is(number)) = test { number } else { 22 };
    let (twelve, two, thirteen) = ((12, !there), (number, two), (13, there && !idle));
    match test {
        Some(Test::NotIdleFirst) => first(&[twelve, thirteen, two]),
        Some(Test::TwoFirst) => first(&[two, twelve, thirteen]),
        Some(Test::TwoBeforeZero) if station == 0 => first(&[two, twelve]),
        Some(Test::TwoBeforeAbove) if station > 0 => first(&[two, twelve, thirteen]),
        _ => first(&[twelve, two, thirteen]),
    }
}

/// The board's own refusal, or 22 where that is tested before it.
fn board_refusal(test: Option<Test>, board: &[u8], stations: &[u8]) -> u8 {
    let own = calls::check(board).map_or_else(|refusal| refusal.number(), |()| 0);
    let there = stations.iter().any(|station| matches!(station, 1 | 2));
    match test {
        Some(Test::Before(from)) if own >= from && is_two(board) && there => 22,
        _ => own,
    }
}

/// Single proposals of which those that are refused are passed over.
fn put_in(board: &mut [u8], pairs: &[Pair]) {
    for (station, figure) in pairs.iter().filter(|pair| (1..=board[0]).contains(&pair.0)).collect::<Vec<_>>() {
        starts::put_in(board, *station, *figure);
    }
}

/// What is altered beside 22.
fn altered(test: Option<Test>, board: &mut [u8], pair: Pair) {
    let mut f = Fields::of_bytes(board);
    let record = (pair.0 as usize).checked_sub(1).and_then(|who| f.records.get_mut(who));
    match (test, record) {
        (Some(Test::PutsIn), _) => return put_in(board, &[pair]),
        (Some(Test::CountsAStep), Some(record)) => record.steps += 1,
        (Some(Test::ClearsTheRecord), Some(record)) => *record = Default::default(),
        (Some(Test::LaysAnew), _) => f = Fields::of_bytes(&starts::fresh(f.n, f.k)),
        _ => {}
    }
    board.copy_from_slice(&f.to_bytes());
}

/// 20, and then what the pairs are refused with, the first fault before the others.
fn list_refusal(fault: Fault, f: &Fields, pairs: &[Pair]) -> u8 {
    let test = if let Fault::Paired(test) = fault { Some(test) } else { None };
    let of = |pair: &Pair| station_refusal(test, f, pair.0);
    let mut numbers: Vec<u8> = pairs.iter().map(of).filter(|number| *number != 0).collect();
    let (two, twice) = (f.n == 2, (20, named_twice(pairs)));
    let Fault::List(list) = fault else { return first(&[twice, (numbers.first().copied().unwrap_or(0), true)]) };
    match list {
        Pairs::TwoBefore20 if two && numbers.contains(&22) => return 22,
        Pairs::TwiceIs22 if two && named_twice(pairs) => return 22,
        Pairs::TwoOfAllFirst => numbers.sort_by_key(|number| *number != 22),
        Pairs::NoStationOfAllFirst => numbers.sort_by_key(|number| *number != 12),
        Pairs::LastAnswers => numbers.reverse(),
        Pairs::EmptyRefused if two && pairs.is_empty() => return 22,
        Pairs::BothTaken if pairs.len() > 1 => numbers.retain(|number| *number != 22),
        Pairs::OneTaken if pairs.len() == 1 => numbers.retain(|number| *number != 22),
        _ => {}
    }
    first(&[twice, (numbers.first().copied().unwrap_or(0), true)])
}

impl Faulty {
    /// What a call answers in place of what is right, on a sound board of two stations.
    fn refused(&self, by: Asked, board: &[u8]) -> Option<u8> {
        match self.fault {
            Fault::Refuses(call, number) if call == by && is_sound_two(board) => Some(number),
            _ => None,
        }
    }

    /// A line and what is laid behind it.
    pub fn line(&self, line: &[u8], laid: usize, memory: &mut [u8]) -> (String, usize) {
        let form = sheet::read(line);
        if let Ok(Form::Board(n, k)) = form {
            let size = length(n, k).min(memory.len());
            return match self.lay(&mut memory[..size], n, k) {
                0 => (format!("(laid {n} {k})"), length(n, k)),
                number => (format!("(refused {number})"), self.line.laid(n, k, laid)),
            };
        }
        let size = laid.min(memory.len());
        let board = &mut memory[..size];
        let wrong = form.ok().filter(|_| is_sound_two(board)).and_then(|form| self.line.printed(&form, board));
        wrong.map_or_else(|| sheet::play_line(line, laid, memory), |printed| (printed, laid))
    }

    /// What a step of two stations answers and leaves, wrong only where it ends.
    fn stepped(&self, step: Step, board: &mut [u8], station: u8, answer: u64) -> u64 {
        let mut f = Fields::of_bytes(board);
        let [one, other] = [station as usize - 1, 2 - station as usize];
        let (kind, proposals) = (answer >> 8 & 0xFF, [f.records[one].proposal, f.records[other].proposal]);
        let decided = match (step, kind) {
            (Step::SpentDecides, 7) => f.records[one].carried,
            (Step::DecidesZero, 6) => 0,
            (Step::DecidesTheOthers, 6) => proposals[1],
            (Step::DecidesTheLarger, 6) => proposals[0].max(proposals[1]),
            _ => return answer,
        };
        (f.records[one].phase, f.records[one].carried) = (7, decided);
        board.copy_from_slice(&f.to_bytes());
        answer & 0xFFFF_00FF | 6 << 8 | (decided as u32 as u64) << 32
    }
}

impl Engine for Faulty {
    fn rest(&self) -> &dyn Engine {
        &Reference
    }

    fn lay(&self, board: &mut [u8], n: u8, k: u8) -> u8 {
        let refusal = lay_refusal(self.fault, board.len(), n, k);
        if refusal != 0 {
            lay_altered(self.fault, board, n, k);
            return refusal;
        }
        board.fill(0);
        board[..2].copy_from_slice(&[n, k]);
        0
    }

    fn propose(&self, board: &mut [u8], station: u8, figure: i32) -> u8 {
        let test = if let Fault::Single(test) = self.fault { Some(test) } else { None };
        let own = board_refusal(test, board, &[station]);
        if own != 0 {
            return own;
        }
        let refusal = station_refusal(test, &Fields::of_bytes(board), station);
        match refusal {
            0 => put_in(board, &[(station, figure)]),
            22 => altered(test, board, (station, figure)),
            _ => {}
        }
        refusal
    }

    fn propose_all(&self, board: &mut [u8], pairs: &mut [u64]) -> u8 {
        let test = if let Fault::Paired(test) = self.fault { Some(test) } else { None };
        let pairs = of_words(pairs);
        let stations: Vec<u8> = pairs.iter().map(|pair| pair.0).collect();
        let own = board_refusal(test, board, &stations);
        if own != 0 {
            return own;
        }
        let refusal = list_refusal(self.fault, &Fields::of_bytes(board), &pairs);
        match refusal {
            0 => put_in(board, &pairs),
            22 if self.fault == Fault::List(Pairs::PutsInAll) => put_in(board, &pairs),
            22 => pairs.iter().for_each(|pair| altered(test, board, *pair)),
            _ => {}
        }
        refusal
    }

    fn check(&self, board: &mut [u8]) -> u8 {
        let right = Reference.check(board);
        if self.fault == Fault::TakesUnsound && right == 11 && is_two(board) {
            return 0;
        }
        self.refused(Asked::Check, board).unwrap_or(right)
    }

    fn step(&self, board: &mut [u8], station: u8) -> u64 {
        if let Some(number) = self.refused(Asked::Step, board) {
            return number as u64;
        }
        let answer = Reference.step(board, station);
        match self.fault {
            Fault::Steps(step) if is_two(board) && answer & 0xFF == 0 => self.stepped(step, board, station, answer),
            _ => answer,
        }
    }

    fn standing(&self, board: &mut [u8], station: u8) -> u64 {
        self.refused(Asked::Standing, board).map_or_else(|| Reference.standing(board, station), u64::from)
    }

    fn run(&self, board: &mut [u8], stations: &mut [u8]) -> u64 {
        if self.fault == Fault::RunTakesNothing && is_sound_two(board) && stations.len() <= calls::MOST_STEPS {
            return (stations.len() as u64) << 32;
        }
        self.refused(Asked::Run, board).map_or_else(|| Reference.run(board, stations), u64::from)
    }

    fn rounds(&self, board: &mut [u8], most: u8, named: &mut [u8]) -> u64 {
        if self.fault == Fault::RoundsTakeNothing && is_sound_two(board) {
            return (Halts::of_bytes(most, named).rounds.len() as u64) << 16;
        }
        self.refused(Asked::Rounds, board).map_or_else(|| Reference.rounds(board, most, named), u64::from)
    }

    fn show(&self, board: &mut [u8], line: &mut [u8]) -> u32 {
        let number = self.refused(Asked::Show, board).filter(|_| line.len() >= SHOWN);
        number.map_or_else(|| Reference.show(board, line), u32::from)
    }

    fn play_line(&self, line: &mut [u8], laid: usize, memory: &mut [u8], printed: &mut [u8]) -> u64 {
        if printed.len() < SHOWN || laid > u32::MAX as usize {
            return u64::MAX;
        }
        let (text, after) = self.line(line, laid, memory);
        printed[..SHOWN].fill(0);
        printed[..text.len()].copy_from_slice(text.as_bytes());
        text.len() as u64 | (after as u64) << 16
    }
}
