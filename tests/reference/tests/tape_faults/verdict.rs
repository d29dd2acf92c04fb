//! Faults of the comparison: where 21 is looked for, which line differs first, and who is blamed.

use crate::lines::LineFault;
use crate::own::OwnFault;

#[derive(Clone, Copy, PartialEq, Debug)]
pub enum VerdictFault {
    Right,

    // Refusals.
    OneBehind21,
    TooLongIsPlayed,
    AskedUpToTheDifference,
    AskedWhereBothHaveALine,
    AskedOfTheFirst,
    AskedOfTheSecond,
    AskedOfWhatDiffers,
    AskedWithoutTheLast,
    AskedUnlessEqual,
    AskedBehindTheDifference,
    WrongLinesRefused,
    ShortTapesRefused,

    // Which line.
    BeyondTheShorter,
    BeyondTheFirst,
    NumbersFromZero,
    LastDifference,
    AlikeIsADifference,
    TotalsPass,
    StationsPass,
    KindsAlone,
    LengthsAlone,
    OnlyWithTheAlgorithm,
    /// Only the first 65,536 lines are looked at.
    LinesOfSixteenBits,

    // Whose line.
    SecondBeyondTheAlgorithm,
    NoneBeyondTheAlgorithm,
    BySecond,
    SecondWhereBothDepart,
    NoneWhereBothDepart,
    AlwaysFirst,
    AlwaysSecond,
    TheOther,
    LineBefore,
    LineBehind,
    AnyLine,
    ByTheKind,
    LongerOne,
}

use VerdictFault::*;

#[rustfmt::skip]
pub const VERDICT_FAULTS: [VerdictFault; 36] = [
    OneBehind21, TooLongIsPlayed, AskedUpToTheDifference, AskedWhereBothHaveALine, AskedOfTheFirst, AskedOfTheSecond,
    AskedOfWhatDiffers, AskedWithoutTheLast, AskedUnlessEqual, AskedBehindTheDifference, WrongLinesRefused,
    ShortTapesRefused, BeyondTheShorter, BeyondTheFirst, NumbersFromZero, LastDifference, AlikeIsADifference,
    TotalsPass, StationsPass, KindsAlone, LengthsAlone, OnlyWithTheAlgorithm, LinesOfSixteenBits,
    SecondBeyondTheAlgorithm, NoneBeyondTheAlgorithm, BySecond, SecondWhereBothDepart, NoneWhereBothDepart, AlwaysFirst,
    AlwaysSecond, TheOther, LineBefore, LineBehind, AnyLine, ByTheKind, LongerOne,
];

/// A line that is blamed: its number as it is told, its tape, its place, and its own length and that of the other's.
#[derive(Clone, Copy)]
pub struct Found {
    pub number: usize,
    pub tape: usize,
    pub start: usize,
    pub length: usize,
    pub others: usize,
}

/// All that a comparison goes by.
pub struct Case<'a> {
    pub own: OwnFault,
    pub line: LineFault,
    pub sheet: &'a [u8],
    pub tapes: [Vec<&'a [u8]>; 2],
}

fn word(line: &[u8], at: usize) -> &[u8] {
    line.split(|b| *b == b' ').nth(at).unwrap_or_default()
}

/// The line without its last word.
fn headless(line: &[u8]) -> &[u8] {
    &line[..line.iter().rposition(|b| *b == b' ').unwrap_or(0)]
}

/// The line without its first word.
fn tailed(line: &[u8]) -> &[u8] {
    &line[line.iter().position(|b| *b == b' ').unwrap_or(0)..]
}

impl VerdictFault {
    pub fn judged(self, case: &Case) -> Result<Option<Found>, u8> {
        let [first, second] = &case.tapes;
        let long = case.sheet.len() > case.own.longest_sheet();
        let at = self.differs(case);
        if self == OneBehind21 && !self.asked(case, at) {
            return Err(21);
        }
        if long && self != TooLongIsPlayed {
            return Err(1);
        }
        if !self.asked(case, at) {
            return Err(21);
        }
        let Some(at) = at else { return Ok(None) };
        let Some(tape) = self.blamed(case, at) else { return Ok(None) };
        let start = case.tapes[tape].iter().take(at).map(|line| line.len() + 1).sum();
        let [length, others] = [tape, 1 - tape].map(|tape| case.tapes[tape].get(at).map_or(0, |line| line.len()));
        let longest = first.len().max(second.len());
        assert!(at < longest, "a line of one of them");
        Ok(Some(Found { number: at + (self != NumbersFromZero) as usize, tape, start, length, others }))
    }

    /// Whether every line passes for a step answer that is asked for it.
    fn asked(self, case: &Case, at: Option<usize>) -> bool {
        let [first, second] = &case.tapes;
        let both = first.len().min(second.len());
        let passes = |tape: &Vec<&[u8]>, from: usize, to: usize| {
            let to = to.min(tape.len());
            tape[from.min(to)..to].iter().all(|line| case.line.passes(line))
        };
        let of_both = |from: usize, to: usize| passes(first, from, to) && passes(second, from, to);
        let own = || case.own.tape(case.sheet, first.len());
        match self {
            AskedUpToTheDifference => of_both(0, at.map_or(usize::MAX, |at| at + 1)),
            AskedBehindTheDifference => of_both(at.map_or(0, |at| at + 1), usize::MAX),
            AskedOfWhatDiffers => at.is_none_or(|at| of_both(at, at + 1)),
            AskedWhereBothHaveALine => of_both(0, both),
            AskedOfTheFirst => passes(first, 0, usize::MAX),
            AskedOfTheSecond => passes(second, 0, usize::MAX),
            AskedWithoutTheLast => {
                passes(first, 0, first.len().saturating_sub(1)) && passes(second, 0, second.len().saturating_sub(1))
            }
            AskedUnlessEqual => first == second || of_both(0, usize::MAX),
            WrongLinesRefused => {
                let own = own();
                let right = |(at, line): (usize, &&[u8])| own.get(at).is_some_and(|own| own.as_bytes() == *line);
                of_both(0, usize::MAX) && (first != second || first.iter().enumerate().all(right))
            }
            ShortTapesRefused => of_both(0, usize::MAX) && (at.is_some() || first.len() == second.len()),
            _ => of_both(0, usize::MAX),
        }
    }

    /// Where the tapes differ, counted from 0.
    fn differs(self, case: &Case) -> Option<usize> {
        let [first, second] = &case.tapes;
        let both = first.len().min(second.len());
        let own = || case.own.tape(case.sheet, usize::MAX);
        let differ = |at: &usize| self.unlike(first[*at], second[*at]);
        let found = match self {
            LastDifference => (0..both).rev().find(differ),
            AlikeIsADifference => {
                let own = own();
                (0..both).find(|at| own.get(*at).is_none_or(|own| own.as_bytes() != first[*at]) || differ(at))
            }
            OnlyWithTheAlgorithm => {
                let lines = own().len();
                (0..both.min(lines)).find(differ)
            }
            LinesOfSixteenBits => (0..both.min(1 << 16)).find(differ),
            _ => (0..both).find(differ),
        };
        match self {
            BeyondTheShorter if found.is_none() && first.len() != second.len() => Some(both),
            BeyondTheFirst if found.is_none() && second.len() > first.len() => Some(both),
            _ => found,
        }
    }

    fn unlike(self, one: &[u8], two: &[u8]) -> bool {
        match self {
            TotalsPass => headless(one) != headless(two),
            StationsPass => tailed(one) != tailed(two),
            KindsAlone => word(one, 1) != word(two, 1),
            LengthsAlone => one.len() != two.len(),
            _ => one != two,
        }
    }

    /// The tape that is blamed, as 0 or 1.
    fn blamed(self, case: &Case, at: usize) -> Option<usize> {
        let [first, second] = &case.tapes;
        let own = case.own.tape(case.sheet, at + 2);
        let here = match self {
            LineBefore => at.checked_sub(1).and_then(|at| own.get(at)),
            LineBehind => own.get(at + 1),
            _ => own.get(at),
        };
        let is = |line: Option<&&[u8]>| line.is_some_and(|line| here.is_some_and(|own| own.as_bytes() == *line));
        let (right, other_right) = (is(first.get(at)), is(second.get(at)));
        let blamed = if right { 1 } else { 0 };
        Some(match self {
            // Whoever has a line there.
            BeyondTheShorter | BeyondTheFirst if first.len() <= at => 1,
            BeyondTheShorter if second.len() <= at => 0,
            SecondBeyondTheAlgorithm if here.is_none() => 1,
            NoneBeyondTheAlgorithm if here.is_none() => return None,
            BySecond => !other_right as usize,
            SecondWhereBothDepart if here.is_some() && !right && !other_right => 1,
            NoneWhereBothDepart if here.is_some() && !right && !other_right => return None,
            AlwaysFirst => 0,
            AlwaysSecond => 1,
            TheOther => 1 - blamed,
            AnyLine => case.own.tape(case.sheet, usize::MAX).iter().any(|own| own.as_bytes() == first[at]) as usize,
            ByTheKind => here.is_some_and(|own| word(own.as_bytes(), 1) == word(first[at], 1)) as usize,
            LongerOne => (second.len() > first.len()) as usize,
            _ => blamed,
        })
    }
}
