//! The faults: which registers a collect counts, what stays of the count, what the answers tell of it, and what soundness asks
//! of it. Kinds of step are those of a packed answer: 3 went, 4 marked, 5 adopted, 6 decided, 7 spent.

use crate::read::{filled, Read};
use reference::bytes::Record;
use reference::model::Mark;
use reference::on_values::By;

#[derive(Clone, Copy, PartialEq, Debug)]
pub enum Fault {
    None,

    // Which registers are counted.
    EmptyOnesToo,
    OnlyEmptyOnes,
    NotItsOwn,
    OnlyItsOwn,
    OnlyItsIsland,
    OnlyCommitsInB,
    OnlyAdoptsInB,
    /// Not those that hold what was heard before.
    OnlyOthers,
    NotTheFirst,
    NotTheLast,
    TheLastTwice,
    /// In the collects of one phase.
    NotIn(u8),
    NotInRuns,
    /// Those that are filled by now among the registers read, whenever they were read.
    AsItStands,
    PositionInstead,
    /// 0 or 1, or a few bits.
    KeptAsAFlag,
    KeptInThreeBits,
    KeptInFourBits,
    FirstStationCounts,

    // What stays of the count, or comes to it.
    NotCleared(u64),
    GoesOn,
    /// Within a run, from one collect to the next.
    GoesOnInRuns,
    WriteCounts,
    ProposalCounts,

    // What is told.
    ReadsAlwaysFilled,
    ReadsAlwaysEmpty,
    ReadsInverted,
    ReadsTheCount,
    ReadsTheMark,
    ReadsThePosition,
    OwnReadsEmpty,
    WriteTells,
    RefusalTells,
    NoTotal(u64),
    TotalWithoutTheLast,
    TotalWithoutItsOwn,
    TotalIsThePosition,
    TotalIsAll,
    TotalIsAFlag,
    /// The registers that are filled at the collect's end.
    TotalAtTheEnd,
    OverTheKind,
    OverTheIsland,
    OverTheFigure,
    InTheUpperHalf,
    StandsWithIt,
    /// The flag is a commit where one register was met.
    FlagByTheCount,

    // What soundness asks: of one phase the position and one more, one less, nothing, or zero.
    Loosened(u8),
    Tightened(u8),
    NotTestedIn(u8),
    ZeroIn(u8),
    ZeroEverywhere,
    PositionFromOne,
    AtMostAll,
    BelowAll,
    ThePosition,
    OneOncePassed,
    NoneWithNothingSeen,
    SomeWithSomethingSeen,
    FourBitsTested,
    SevenBitsTested,
    SignedTest,
    Byte7Free,
    Byte7FreeInCollects,
}

use Fault::*;

#[rustfmt::skip]
const COUNTING: [Fault; 18] = [
    EmptyOnesToo, OnlyEmptyOnes, NotItsOwn, OnlyItsOwn, OnlyItsIsland, OnlyCommitsInB, OnlyAdoptsInB, OnlyOthers, NotTheFirst,
    NotTheLast, TheLastTwice, NotIn(2), NotIn(4), NotIn(6), AsItStands, PositionInstead, KeptAsAFlag, KeptInThreeBits,
];

/// What stays on a board need not be told in a list; and a total of sixteen, which four bits do not hold, is rare there.
#[rustfmt::skip]
const STAYING: [Fault; 12] = [
    KeptInFourBits, NotInRuns, FirstStationCounts, NotCleared(3), NotCleared(4), NotCleared(5), NotCleared(6), NotCleared(7),
    GoesOn, GoesOnInRuns, WriteCounts, ProposalCounts,
];

#[rustfmt::skip]
const TELLING: [Fault; 20] = [
    ReadsAlwaysFilled, ReadsAlwaysEmpty, ReadsInverted, ReadsTheCount, ReadsTheMark, ReadsThePosition, OwnReadsEmpty,
    WriteTells, NoTotal(3), NoTotal(4), NoTotal(5), NoTotal(6), NoTotal(7), TotalWithoutTheLast, TotalWithoutItsOwn,
    TotalIsThePosition, TotalIsAll, TotalIsAFlag, TotalAtTheEnd, InTheUpperHalf,
];

const BESIDE: [Fault; 6] = [RefusalTells, OverTheKind, OverTheIsland, OverTheFigure, StandsWithIt, FlagByTheCount];

/// Those that tell something else than the registers that were met, on boards that lists reach too.
pub fn of_answers() -> Vec<Fault> {
    COUNTING.into_iter().chain(TELLING).collect()
}

/// Those by which a board is taken for sound that is not, or the other way round.
fn of_soundness() -> Vec<Fault> {
    let mut all: Vec<Fault> =
        [2, 4, 6].into_iter().flat_map(|phase| [Loosened(phase), Tightened(phase), ZeroIn(phase)]).collect();
    all.extend((0..=8).map(NotTestedIn));
    all.extend([ZeroEverywhere, PositionFromOne, AtMostAll, BelowAll, ThePosition, OneOncePassed, NoneWithNothingSeen]);
    all.extend([SomeWithSomethingSeen, FourBitsTested, SevenBitsTested, SignedTest, Byte7Free, Byte7FreeInCollects]);
    all
}

pub fn all_faults() -> Vec<Fault> {
    [of_answers(), STAYING.to_vec(), BESIDE.to_vec(), of_soundness()].concat()
}

impl Fault {
    /// The count once this was read as well.
    pub fn counted(self, met: u16, read: &Read, by: By) -> u16 {
        let one = read.register.is_some() as u16;
        let (last, own) = (read.last() as u16, read.own as u16);
        let more = match self {
            EmptyOnesToo => 1,
            OnlyEmptyOnes => 1 - one,
            NotItsOwn => one - own,
            OnlyItsOwn => own,
            OnlyItsIsland => one * read.on_its_island as u16,
            OnlyCommitsInB => one - read.is(Mark::Adopt) as u16,
            OnlyAdoptsInB => one - read.is(Mark::Commit) as u16,
            OnlyOthers => one - read.heard as u16,
            NotTheFirst => one * (read.position > 0) as u16,
            NotTheLast => one * (1 - last),
            TheLastTwice => one + one * last,
            NotIn(phase) => one * (phase != read.phase) as u16,
            NotInRuns => one * (by != By::Run) as u16,
            _ => one,
        };
        match self {
            AsItStands => filled(&read.row[..=read.position]),
            PositionInstead => read.position as u16 + 1,
            KeptAsAFlag => (met + more).min(1),
            KeptInThreeBits => (met + more) & 7,
            KeptInFourBits => (met + more) & 15,
            _ => met + more,
        }
    }

    /// What is left of it behind a step of this kind: nothing behind a write or the end of a collect.
    pub fn left(self, met: u16, kind: u64, by: By) -> u16 {
        match self {
            _ if kind == 2 => met,
            WriteCounts if kind == 1 => 1,
            NotCleared(end) if end == kind => met,
            GoesOn => met,
            GoesOnInRuns if by == By::Run => met,
            _ => 0,
        }
    }

    /// What *read* tells, or a total. Before this read the count was another.
    pub fn told(self, kind: u64, before: u16, met: u16, read: &Read) -> u16 {
        let position = read.position as u16;
        let one = read.register.is_some() as u16;
        match self {
            ReadsAlwaysFilled if kind == 2 => 1,
            ReadsAlwaysEmpty if kind == 2 => 0,
            ReadsInverted if kind == 2 => 1 - one,
            ReadsTheCount if kind == 2 => met,
            ReadsTheMark if kind == 2 => one + read.is(Mark::Commit) as u16,
            ReadsThePosition if kind == 2 => position,
            OwnReadsEmpty if kind == 2 => one * (1 - read.own as u16),
            _ if kind == 2 => one,
            NoTotal(end) if end == kind => 0,
            TotalWithoutTheLast => before,
            TotalWithoutItsOwn => met.saturating_sub(1),
            TotalIsThePosition => position,
            TotalIsAll => read.row.len() as u16,
            TotalIsAFlag => met.min(1),
            TotalAtTheEnd => filled(&read.row),
            _ => met,
        }
    }

    /// The answer with that in its place, or where the fault has it.
    pub fn packed(self, answer: u64, last: u16) -> u64 {
        let (bare, last) = (answer & !0xFF00_0000, last as u64 & 0xFF);
        match self {
            OverTheKind => bare | last << 8,
            OverTheIsland => bare | last << 16,
            OverTheFigure => bare | last << 32,
            InTheUpperHalf => bare | last << 28 & 0xFF00_0000,
            _ => bare | last << 24,
        }
    }

    pub fn sound(self, n: u8, who: usize, r: &Record) -> bool {
        let collects = matches!(r.phase, 2 | 4 | 6);
        let position = if collects { r.next } else { 0 };
        let most = match self {
            Loosened(phase) if phase == r.phase => position + 1,
            Tightened(phase) if phase == r.phase => position.saturating_sub(1),
            NotTestedIn(phase) if phase == r.phase => 255,
            ZeroIn(phase) if phase == r.phase => 0,
            ZeroEverywhere => 0,
            PositionFromOne if collects => position + 1,
            AtMostAll if collects => n,
            BelowAll if collects => n - 1,
            GoesOn => 255,
            _ => position,
        };
        let within = match self {
            FourBitsTested => r.met & 15 <= most,
            SevenBitsTested => r.met & 127 <= most,
            SignedTest => r.met as i8 <= most as i8,
            _ => r.met <= most,
        };
        let asked = match self {
            ThePosition => r.met == position,
            OneOncePassed => r.met > 0 || position as usize <= who,
            NoneWithNothingSeen => r.met == 0 || r.seen > 0,
            SomeWithSomethingSeen => r.met > 0 || r.seen == 0,
            _ => true,
        };
        let byte_7 = self == Byte7Free || self == Byte7FreeInCollects && collects || r.zero == 0;
        within && asked && byte_7
    }
}
