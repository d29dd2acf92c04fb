//! Wrong ways to play rounds, each of which the comparison of the library's call finds, and that of sheets.

use reference::bytes::{length, Fields};
use reference::calls;
use reference::compare;
use reference::engine::{Engine, Reference};
use reference::halts::{Halts, ROUND_END};
use reference::sheet::{self, Form};
use reference::{edges, sheets};

/// Faults that a call and a line can have.
#[derive(Clone, Copy, PartialEq, Debug)]
enum Fault {
    None,
    /// The paper's own round: all write, and then all collect.
    WritesFirst,
    LastStationFirst,
    OneRegisterEach,
    SuspendedSteps,
    EndsOnceAllHaveDecided,
    CountsRoundsThatMoved,
    CountsNewlyDecided,
    CountsSpentAsDecided,
    TestsRoundsWhilePlaying,
    AsksOnlyWhoWouldMove,
    AsksOnlyWithARound,
    RoundsBeforeCollects,
    AllowsEqualNeighbours,
    AllowsFallingOrder,
    AllowsOneTooMany,
    AllowsStationZero,
    AllowsOneAbove,
    RefusesThoseNotGoing,
    CountsOnlyThoseGoing,
    DropsEmptyRounds,
}

/// Faults of the list that the call alone is lent.
#[derive(Clone, Copy, PartialEq, Debug)]
enum ListFault {
    None,
    LastRoundNeedsItsEnd,
    FinalEndBeginsARound,
    EndsAtAnyHighByte,
    CountsInSixteenBits,
    ExchangesTheCounts,
    WritesTheList,
}

#[rustfmt::skip]
const FAULTS: [Fault; 20] = {
    use Fault::*;
    [
        WritesFirst, LastStationFirst, OneRegisterEach, SuspendedSteps, EndsOnceAllHaveDecided, CountsRoundsThatMoved,
        CountsNewlyDecided, CountsSpentAsDecided, TestsRoundsWhilePlaying, AsksOnlyWhoWouldMove, AsksOnlyWithARound,
        RoundsBeforeCollects, AllowsEqualNeighbours, AllowsFallingOrder, AllowsOneTooMany, AllowsStationZero,
        AllowsOneAbove, RefusesThoseNotGoing, CountsOnlyThoseGoing, DropsEmptyRounds,
    ]
};

#[rustfmt::skip]
const LIST_FAULTS: [ListFault; 6] = {
    use ListFault::*;
    [
        LastRoundNeedsItsEnd, FinalEndBeginsARound, EndsAtAnyHighByte, CountsInSixteenBits, ExchangesTheCounts,
        WritesTheList,
    ]
};

fn phase(board: &[u8], station: u8) -> u8 {
    Fields::of_bytes(board).records[station as usize - 1].phase
}

fn going(board: &[u8], station: u8) -> bool {
    (1..=6).contains(&phase(board, station))
}

fn count(board: &[u8], holds: impl Fn(u8) -> bool) -> usize {
    Fields::of_bytes(board).records.iter().filter(|r| holds(r.phase)).count()
}

impl Fault {
    /// Refusal 18.
    fn amid_collect(self, board: &[u8], halts: &Halts) -> bool {
        let free = |s: &u8| halts.rounds.iter().any(|named| !named.contains(s));
        let asked = |s: &u8| match self {
            Fault::AsksOnlyWhoWouldMove => free(s),
            Fault::AsksOnlyWithARound => !halts.rounds.is_empty(),
            _ => true,
        };
        (1..=board[0]).filter(asked).any(|s| matches!(phase(board, s), 2 | 4 | 6))
    }

    /// Refusal 19 of one round.
    fn unfit(self, board: &[u8], most: u8, named: &[u8]) -> bool {
        let n = board[0];
        let lowest = if self == Fault::AllowsStationZero { 0 } else { 1 };
        let highest = if self == Fault::AllowsOneAbove { n + 1 } else { n };
        let there = |s: u8| (1..=n).contains(&s);
        let counted = named.iter().filter(|s| self != Fault::CountsOnlyThoseGoing || there(**s) && going(board, **s));
        let most = most as usize + (self == Fault::AllowsOneTooMany) as usize;
        let falls = named.windows(2).any(|two| match self {
            Fault::AllowsEqualNeighbours => two[0] > two[1],
            Fault::AllowsFallingOrder => two[0] == two[1],
            _ => two[0] >= two[1],
        });
        let stopped = self == Fault::RefusesThoseNotGoing && named.iter().any(|s| there(*s) && !going(board, *s));
        named.iter().any(|s| *s < lowest || *s > highest) || falls || counted.count() > most || stopped
    }

    /// Whether anybody moved.
    fn round(self, board: &mut [u8], named: &[u8]) -> bool {
        let n = board[0];
        let free = |s: &u8| self == Fault::SuspendedSteps || !named.contains(s);
        let mut order: Vec<u8> = (1..=n).filter(free).collect();
        if self == Fault::LastStationFirst {
            order.reverse();
        }
        let turns: &[usize] = match self {
            Fault::WritesFirst => &[1, n as usize],
            Fault::OneRegisterEach => &[1],
            _ => &[n as usize + 1],
        };
        let all = turns.iter().flat_map(|steps| order.iter().flat_map(|s| vec![*s; *steps]));
        calls::run(board, &all.collect::<Vec<u8>>()).is_ok_and(|(taken, _)| taken > 0)
    }

    fn rounds(self, board: &mut [u8], halts: &Halts) -> Result<(usize, usize), u8> {
        calls::check(board).map_err(|refusal| refusal.number())?;
        let mut halts = halts.clone();
        halts.rounds.retain(|named| self != Fault::DropsEmptyRounds || !named.is_empty());
        let unfit = halts.rounds.iter().any(|named| self.unfit(board, halts.most, named));
        if self == Fault::RoundsBeforeCollects && unfit {
            return Err(19);
        }
        if self.amid_collect(board, &halts) {
            return Err(18);
        }
        if self != Fault::TestsRoundsWhilePlaying && unfit {
            return Err(19);
        }
        self.all_rounds(board, &halts)
    }

    fn all_rounds(self, board: &mut [u8], halts: &Halts) -> Result<(usize, usize), u8> {
        let ended = |phase: u8| phase == 7 || self == Fault::CountsSpentAsDecided && phase == 8;
        let before = if self == Fault::CountsNewlyDecided { count(board, ended) } else { 0 };
        let mut played = 0;
        for named in &halts.rounds {
            if self == Fault::EndsOnceAllHaveDecided && count(board, |phase| phase == 7) == board[0] as usize {
                break;
            }
            if self.unfit(board, halts.most, named) && self == Fault::TestsRoundsWhilePlaying {
                return Err(19);
            }
            let moved = self.round(board, named);
            played += (moved || self != Fault::CountsRoundsThatMoved) as usize;
        }
        Ok((played, count(board, ended) - before))
    }
}

impl ListFault {
    fn rounds_of(self, most: u8, named: &[u8]) -> Halts {
        let mut list = named.to_vec();
        match self {
            ListFault::LastRoundNeedsItsEnd => while list.pop_if(|b| *b != ROUND_END).is_some() {},
            ListFault::FinalEndBeginsARound if list.ends_with(&[ROUND_END]) => list.push(ROUND_END),
            ListFault::EndsAtAnyHighByte => list.iter_mut().filter(|b| **b >= 128).for_each(|b| *b = ROUND_END),
            _ => {}
        }
        Halts::of_bytes(most, &list)
    }

    fn packed(self, (played, decided): (usize, usize)) -> u64 {
        let (played, decided) = (played as u64, decided as u64);
        match self {
            ListFault::CountsInSixteenBits => decided << 8 | (played & 0xFFFF) << 16,
            ListFault::ExchangesTheCounts => (played & 0xFF) << 8 | decided << 16,
            _ => decided << 8 | played << 16,
        }
    }
}

/// Only the call of rounds is wrong.
struct Faulty(Fault, ListFault);

impl Engine for Faulty {
    fn rest(&self) -> &dyn Engine {
        &Reference
    }

    fn rounds(&self, board: &mut [u8], most: u8, named: &mut [u8]) -> u64 {
        let answer = self.0.rounds(board, &self.1.rounds_of(most, named));
        if self.1 == ListFault::WritesTheList {
            named.reverse();
        }
        answer.map_or_else(|refusal| refusal as u64, |counts| self.1.packed(counts))
    }
}

/// The first batch has far more calls than those after it, and is made last.
fn found_by_calls(fault: Fault, list_fault: ListFault) -> bool {
    compare::differs(&Faulty(fault, list_fault), (1..12).chain([0]), |compare, seed| compare.batch(seed))
}

/// A whole sheet, of which only the rounds are played wrongly.
fn played(fault: Fault, text: &[u8]) -> Vec<u8> {
    let (mut memory, mut laid, mut out) = (vec![0; length(16, 64)], 0, Vec::new());
    for line in sheet::lines(text) {
        let printed = match sheet::read(line) {
            Ok(Form::Rounds(halts)) if laid > 0 => match fault.rounds(&mut memory[..laid], &halts) {
                Ok((played, decided)) => format!("(played {played} {decided})"),
                Err(refusal) => format!("(refused {refusal})"),
            },
            _ => {
                let (printed, after) = sheet::play_line(line, laid, &mut memory);
                laid = after;
                printed
            }
        };
        out.extend(printed.bytes().chain([b'\n']));
    }
    out
}

fn found_by_sheets(fault: Fault) -> bool {
    let differs = |text: &[u8]| text.len() <= sheet::LONGEST_SHEET && played(fault, text) != sheet::play(text);
    (1..=200).any(|seed| differs(&sheets::sheet(seed)))
}

fn found_by_edges(fault: Fault) -> bool {
    edges::edges()
        .iter()
        .any(|edge| edge.name.contains("round") && played(fault, &edge.sheet) != sheet::play(&edge.sheet))
}

#[test]
fn what_is_right_passes() {
    assert!(!found_by_calls(Fault::None, ListFault::None));
    assert!(!found_by_sheets(Fault::None));
    assert!(!found_by_edges(Fault::None));
}

#[test]
fn each_fault_is_found_by_calls() {
    for fault in FAULTS {
        assert!(found_by_calls(fault, ListFault::None), "{fault:?}");
    }
    for fault in LIST_FAULTS {
        assert!(found_by_calls(Fault::None, fault), "{fault:?}");
    }
}

#[test]
fn each_fault_is_found_by_sheets() {
    for fault in FAULTS {
        assert!(found_by_sheets(fault), "made sheets: {fault:?}");
        assert!(found_by_edges(fault), "edges: {fault:?}");
    }
}
