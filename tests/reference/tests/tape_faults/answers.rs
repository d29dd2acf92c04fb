//! Faults of what the two calls answer, and of what they leave in lent memory.

use crate::verdict::Found;

#[derive(Clone, Copy, PartialEq, Debug)]
pub enum AnswerFault {
    Right,

    // The number and the tape.
    NumberInEightBits,
    NumberInSixteenBits,
    TapesFromZero,
    TapesExchanged,
    NoTape,
    TapeAsAnswer,
    ListClearedByARefusal,
    RefusalInTheList,
    RefusalInTheListAlone,
    NoneBlamesTheFirst,
    NoneIsAllOnes,
    NoneStays,

    // The part.
    WithItsLf,
    WithoutBrackets,
    ToTheEnd,
    StartsAtItsLf,
    StartsFromOne,
    StartsAtTheTape,
    StartInSixteenBits,
    StartIn24Bits,
    LengthOfTheOthers,
    EndForLength,
    PartOfNoTape,
    RefusalOfThePart,
    RefusalStays,
    NoneIsThePartBehind,

    // What stays in lent memory.
    EndsTheLine,
    EndsTheTapes,
    ClearsTheSheet,
    MarksTheSecond,
}

use AnswerFault::*;

#[rustfmt::skip]
pub const ANSWER_FAULTS: [AnswerFault; 30] = [
    NumberInEightBits, NumberInSixteenBits, TapesFromZero, TapesExchanged, NoTape, TapeAsAnswer, ListClearedByARefusal,
    RefusalInTheList, RefusalInTheListAlone, NoneBlamesTheFirst, NoneIsAllOnes, NoneStays, WithItsLf, WithoutBrackets,
    ToTheEnd, StartsAtItsLf, StartsFromOne, StartsAtTheTape, StartInSixteenBits, StartIn24Bits, LengthOfTheOthers,
    EndForLength, PartOfNoTape, RefusalOfThePart, RefusalStays, NoneIsThePartBehind, EndsTheLine, EndsTheTapes,
    ClearsTheSheet, MarksTheSecond,
];

/// What a call answers, and the two numbers that it puts into the list, if any.
#[derive(Clone, Copy)]
pub struct Told {
    pub answer: u8,
    pub two: Option<[u64; 2]>,
}

fn with(answer: u8, one: u64, other: u64) -> Told {
    Told { answer, two: Some([one, other]) }
}

fn alone(answer: u8) -> Told {
    Told { answer, two: None }
}

impl AnswerFault {
    /// As the call for the number answers.
    pub fn number(self, found: Result<Option<Found>, u8>) -> Told {
        let found = match found {
            Ok(Some(found)) => found,
            Ok(None) => return self.none(),
            Err(refusal) => return self.refusal(refusal),
        };
        let number = match self {
            NumberInEightBits => found.number & 0xFF,
            NumberInSixteenBits => found.number & 0xFFFF,
            _ => found.number,
        };
        let tape = self.tape(found);
        with(if self == TapeAsAnswer { tape } else { 0 }, number as u64, tape as u64)
    }

    /// As that call answers none.
    fn none(self) -> Told {
        match self {
            NoneIsAllOnes => with(0, u64::MAX, u64::MAX),
            NoneBlamesTheFirst => with(0, 0, 1),
            NoneStays => alone(0),
            _ => with(0, 0, 0),
        }
    }

    /// As that call refuses.
    fn refusal(self, refusal: u8) -> Told {
        match self {
            ListClearedByARefusal => with(refusal, 0, 0),
            RefusalInTheList => with(refusal, refusal as u64, 0),
            RefusalInTheListAlone => with(0, refusal as u64, 0),
            _ => alone(refusal),
        }
    }

    fn tape(self, found: Found) -> u8 {
        match self {
            TapesFromZero => found.tape as u8,
            TapesExchanged => 2 - found.tape as u8,
            NoTape => 0,
            _ => 1 + found.tape as u8,
        }
    }

    /// As the call for the part answers none and refuses.
    fn no_part(self, refused: Option<u8>, first: usize) -> Told {
        match (self, refused) {
            (NoneIsAllOnes, None) => with(0, u64::MAX, u64::MAX),
            (NoneIsThePartBehind, None) => with(0, first as u64, 0),
            (NoneBlamesTheFirst, None) => with(1, 0, 0),
            (NoneStays, None) => alone(0),
            (RefusalOfThePart, Some(refusal)) => with(refusal, 0, 0),
            (RefusalInTheList, Some(refusal)) => with(0, refusal as u64, 0),
            (RefusalStays, Some(_)) => alone(0),
            _ => with(0, 0, 0),
        }
    }

    /// As the call for the part answers.
    pub fn part(self, found: Result<Option<Found>, u8>, tapes: [usize; 2]) -> Told {
        let found = match found {
            Ok(Some(found)) => found,
            Ok(None) => return self.no_part(None, tapes[0]),
            Err(refusal) => return self.no_part(Some(refusal), tapes[0]),
        };
        let end = tapes[found.tape];
        let (start, length) = match self {
            WithItsLf => (found.start, (found.length + 1).min(end - found.start)),
            WithoutBrackets => (found.start + 1, found.length - 2),
            ToTheEnd => (found.start, end - found.start),
            StartsAtItsLf => (found.start.saturating_sub(1), found.length),
            StartsFromOne => (found.start + 1, found.length),
            StartsAtTheTape => (0, found.length),
            StartInSixteenBits => (found.start & 0xFFFF, found.length),
            StartIn24Bits => (found.start & 0xFF_FFFF, found.length),
            LengthOfTheOthers => (found.start, found.others),
            EndForLength => (found.start, found.start + found.length),
            _ => (found.start, found.length),
        };
        with(if self == PartOfNoTape { 0 } else { self.tape(found) }, start as u64, length as u64)
    }

    /// What the call for the number leaves in what it was lent.
    pub fn writes(self, sheet: &mut [u8], tapes: [&mut [u8]; 2]) {
        match self {
            EndsTheTapes => tapes.into_iter().filter_map(|tape| tape.last_mut()).for_each(|last| *last = 0),
            ClearsTheSheet => sheet.fill(0),
            MarksTheSecond => tapes[1].iter_mut().filter(|b| **b == b'\n').for_each(|b| *b = 0),
            _ => {}
        }
    }

    /// What the call for the part leaves in the tapes.
    pub fn writes_part(self, found: Result<Option<Found>, u8>, tapes: [&mut [u8]; 2]) {
        if let (EndsTheLine, Ok(Some(found))) = (self, found) {
            tapes[found.tape].get_mut(found.start + found.length).into_iter().for_each(|b| *b = 0);
        }
    }
}
