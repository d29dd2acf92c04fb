//! The comparison itself is tried: an engine that is the reference passes, and each of these faults is found.

use reference::bytes::Fields;
use reference::compare;
use reference::engine::{Engine, Reference, SHOWN};

/// The faults by name, and all of them to be tried.
macro_rules! faults {
    ($($fault:ident),+ $(,)?) => {
        #[derive(Clone, Copy, PartialEq, Debug)]
        enum Fault {
            None,
            $($fault),+
        }

        const FAULTS: &[Fault] = &[$($fault),+];
    };
}

faults! {
    TouchesOnRefusal,
    MendsTheBoard,
    StepsOnAnUnsoundBoard,
    DecidesBesideAnAdopt,
    SpentEarly,
    StandsWithTheProposal,
    StandsOnIslandZero,
    SpentStandsAsDecided,
    StandsBeforeTheCheck,
    CountsOneTooMany,
    WritesTheStations,
    ClearsTheLine,
    LeavesWhatStoodBehind,
    WritesBehindTheLine,
    ShowsWithoutRoom,
    TakesTimesForAWord,
    EndsTheWord,
    LaysTooMuch,
    LeavesThePrinted,
    PlaysWithoutRoom,
    DropsALineFeed,
    NeedsAllThatIsLaid,
}

use Fault::*;

struct Faulty(Fault);

impl Faulty {
    /// A kind in bits 8 to 15 put in the place of another.
    fn kind(&self, answer: u64, from: u64, to: u64) -> u64 {
        if answer & 0xFF00 == from << 8 {
            answer & !0xFF00 | to << 8
        } else {
            answer
        }
    }

    fn is(&self, fault: Fault) -> bool {
        self.0 == fault
    }
}

/// The number that stands first in a record's figures.
fn proposal(board: &[u8], station: u8) -> u64 {
    Fields::of_bytes(board).records[station as usize - 1].proposal as u32 as u64
}

/// `round_faults`, `pair_faults` and others try what is not written out here.
impl Engine for Faulty {
    fn rest(&self) -> &dyn Engine {
        &Reference
    }

    fn propose(&self, board: &mut [u8], station: u8, figure: i32) -> u8 {
        let answer = Reference.propose(board, station, figure);
        if self.is(TouchesOnRefusal) && answer == 13 {
            board[8] ^= 1;
        }
        answer
    }

    fn check(&self, board: &mut [u8]) -> u8 {
        let answer = Reference.check(board);
        if self.is(MendsTheBoard) && answer == 11 {
            board[2..8].fill(0);
        }
        answer
    }

    fn step(&self, board: &mut [u8], station: u8) -> u64 {
        let answer = Reference.step(board, station);
        match self.0 {
            StepsOnAnUnsoundBoard if answer == 11 => 0x100,
            DecidesBesideAnAdopt => self.kind(answer, 5, 6),
            SpentEarly => self.kind(answer, 5, 7),
            _ => answer,
        }
    }

    fn standing(&self, board: &mut [u8], station: u8) -> u64 {
        let answer = Reference.standing(board, station);
        match self.0 {
            StandsWithTheProposal if answer & 0xFF == 0 => answer & 0xFFFF_FFFF | proposal(board, station) << 32,
            StandsOnIslandZero => answer & !0xF_F000,
            SpentStandsAsDecided if answer >> 8 & 0xF == 4 => answer ^ 0x700,
            StandsBeforeTheCheck if answer == 11 && station == 0 => 12,
            _ => answer,
        }
    }

    fn run(&self, board: &mut [u8], stations: &mut [u8]) -> u64 {
        let answer = Reference.run(board, stations);
        if self.is(WritesTheStations) {
            stations.reverse();
        }
        answer + if self.is(CountsOneTooMany) && answer & 0xFF == 0 { 0x100 } else { 0 }
    }

    fn show(&self, board: &mut [u8], line: &mut [u8]) -> u32 {
        let kept = line.to_vec();
        let answer = Reference.show(board, line);
        let (length, refused) = ((answer >> 16) as usize, answer & 0xFF != 0);
        match self.0 {
            ClearsTheLine if refused && line.len() >= SHOWN => line[..SHOWN].fill(0),
            LeavesWhatStoodBehind if !refused => line[length..].copy_from_slice(&kept[length..]),
            WritesBehindTheLine if !refused => line[SHOWN..].fill(0),
            ShowsWithoutRoom if answer == u32::MAX => line.fill(0),
            _ => {}
        }
        answer
    }

    fn word(&self, line: &mut [u8]) -> u64 {
        let answer = Reference.word(line);
        if self.is(EndsTheWord) && answer != 0 {
            line[0] = 0;
        }
        if self.is(TakesTimesForAWord) && line.starts_with(b"(times ") {
            1 | 5 << 32
        } else {
            answer
        }
    }

    fn play_line(&self, line: &mut [u8], laid: usize, memory: &mut [u8], printed: &mut [u8]) -> u64 {
        let kept = printed.to_vec();
        let end = if self.is(DropsALineFeed) && line.ends_with(b"\n") { line.len() - 1 } else { line.len() };
        if self.is(NeedsAllThatIsLaid) && laid > memory.len() {
            return Reference.play_line(line, laid, &mut [], printed);
        }
        let answer = Reference.play_line(&mut line[..end], laid, memory, printed);
        let after = (answer >> 16) as usize;
        match self.0 {
            LaysTooMuch if printed.starts_with(b"(laid") && after < memory.len() => memory[after] ^= 1,
            LeavesThePrinted if printed.starts_with(b"(refused") => printed.copy_from_slice(&kept),
            PlaysWithoutRoom if answer == u64::MAX => printed.fill(0),
            _ => {}
        }
        answer
    }
}

/// Batches are made until one fails. The first has far more calls than those after it, and is made last.
fn found(fault: Fault) -> bool {
    compare::differs(&Faulty(fault), (1..40).chain([0]), |compare, seed| compare.batch(seed))
}

#[test]
fn the_reference_beside_itself() {
    assert!(!found(None));
}

/// Every refusal that a call on a board can answer comes up, in the first batch those that are rare.
#[test]
fn every_refusal_is_met() {
    let mut compare = compare::Compare::new(&Reference);
    (0..20).for_each(|seed| compare.batch(seed));
    assert_eq!(compare.counts.unmet(), Vec::<usize>::new());
}

#[test]
fn each_fault_is_found() {
    for &fault in FAULTS {
        assert!(found(fault), "{fault:?}");
    }
}
