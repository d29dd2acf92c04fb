//! Faults of whoever plays the sheet: which steps leave a line on the algorithm's own tape, and what the line says. `player`
//! plays it so.

use reference::model::{Answer, Mark};
use reference::sheet::LONGEST_SHEET;

#[derive(Clone, Copy, PartialEq, Debug)]
pub enum OwnFault {
    Right,

    // Which lines of a sheet add to the tape.
    SheetOneByteLess,
    SheetOneByteMore,
    LastLineNeedsItsLf,
    LongLinesPlay,
    EndsAtARefusedLine,
    BoardBeginsATape,
    FirstBoardOnly,
    RefusedLayingForgets,
    RefusedProposalReplaces,
    PairsNotPutIn,
    PairsBeforeAFault,

    // Which steps leave a line.
    RefusedStepsLeaveALine,
    StepsOfNobodyLeaveALine,
    FirstStationNotTaped,
    SixAddsTheFirst,
    SixAddsAll,
    MostIsRefused,
    ItemsOnce,
    RoundsAddNothing,
    RoundsNotPlayed,
    RoundsOfSingleSteps,
    RoundsByThePaper,
    RoundsBackwards,
    SuspendedStepToo,
    RoundsAmidCollects,
    RoundsBeforeAFault,

    // What a line says.
    TotalFirst,
    NoTotal,
    TotalWithoutTheLast,
    FlagFromZero,
    FlagsExchanged,
    FlagAsAWord,
    IslandForTheFlag,
    ReadInverted,
    ReadBare,
    WroteWithAField,
    StationsFromZero,
    AdoptedWhereItWas,
    AdoptedTwiceOn,
    NoSign,
    FigureFirst,
    SpentIsAdopted,
    CapitalLetters,
}

use OwnFault::*;

#[rustfmt::skip]
pub const OWN_FAULTS: [OwnFault; 43] = [
    SheetOneByteLess, SheetOneByteMore, LastLineNeedsItsLf, LongLinesPlay, EndsAtARefusedLine, BoardBeginsATape,
    FirstBoardOnly, RefusedLayingForgets, RefusedProposalReplaces, PairsNotPutIn, PairsBeforeAFault,
    RefusedStepsLeaveALine, StepsOfNobodyLeaveALine, FirstStationNotTaped, SixAddsTheFirst, SixAddsAll, MostIsRefused,
    ItemsOnce, RoundsAddNothing, RoundsNotPlayed, RoundsOfSingleSteps, RoundsByThePaper, RoundsBackwards,
    SuspendedStepToo, RoundsAmidCollects, RoundsBeforeAFault, TotalFirst, NoTotal, TotalWithoutTheLast, FlagFromZero,
    FlagsExchanged, FlagAsAWord, IslandForTheFlag, ReadInverted, ReadBare, WroteWithAField, StationsFromZero,
    AdoptedWhereItWas, AdoptedTwiceOn, NoSign, FigureFirst, SpentIsAdopted, CapitalLetters,
];

impl OwnFault {
    pub fn longest_sheet(self) -> usize {
        match self {
            SheetOneByteLess => LONGEST_SHEET - 1,
            SheetOneByteMore => LONGEST_SHEET + 1,
            _ => LONGEST_SHEET,
        }
    }

    /// What the line of a step says. The island is where the station stood before it.
    pub fn said(self, station: u8, answer: Answer, island: u8) -> String {
        let station = if self == StationsFromZero { station - 1 } else { station };
        let (kind, place, figure, total) = match answer {
            Answer::Wrote if self == WroteWithAField => return format!("({station} wrote 0)"),
            Answer::Wrote => return format!("({station} wrote)"),
            Answer::Read(_) if self == ReadBare => return format!("({station} read)"),
            Answer::Read(filled) => return format!("({station} read {})", (filled != (self == ReadInverted)) as u8),
            Answer::Went(c, v, total) => ("went", c, v, total),
            Answer::Marked(flag, v, total) => ("marked", self.flag(flag, island), v, total),
            Answer::Adopted(c, v, total) if self == AdoptedWhereItWas => ("adopted", c - 1, v, total),
            Answer::Adopted(c, v, total) => ("adopted", c + (self == AdoptedTwiceOn) as u8, v, total),
            Answer::Decided(c, v, total) => ("decided", c, v, total),
            Answer::Spent(c, v, total) => (if self == SpentIsAdopted { "adopted" } else { "spent" }, c, v, total),
        };
        match self {
            TotalFirst => format!("({station} {kind} {place} {total} {figure})"),
            FigureFirst => format!("({station} {kind} {figure} {place} {total})"),
            NoTotal => format!("({station} {kind} {place} {figure})"),
            TotalWithoutTheLast => format!("({station} {kind} {place} {figure} {})", total - 1),
            NoSign => format!("({station} {kind} {place} {} {total})", figure.unsigned_abs()),
            FlagAsAWord if kind == "marked" && place == 2 => format!("({station} marked commit {figure} {total})"),
            CapitalLetters => format!("({station} {} {place} {figure} {total})", kind.to_uppercase()),
            _ => format!("({station} {kind} {place} {figure} {total})"),
        }
    }

    fn flag(self, flag: Mark, island: u8) -> u8 {
        let commits = (flag == Mark::Commit) as u8;
        match self {
            FlagFromZero => commits,
            FlagsExchanged => 2 - commits,
            IslandForTheFlag => island,
            _ => 1 + commits,
        }
    }
}
