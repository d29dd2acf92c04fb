//! The faults of calls by name: of layings, of the test that every call makes of a board, of proposals and of steps.

/// A call that is lent a board and neither lays it nor puts a figure in.
#[derive(Clone, Copy, PartialEq, Debug)]
pub enum Asked {
    Check,
    Step,
    Standing,
    Run,
    Rounds,
    Show,
}

/// What is wrong with a laying.
#[derive(Clone, Copy, PartialEq, Debug)]
pub enum Lay {
    TakesTwo,
    /// Refused by another number.
    TwoIs(u8),
    /// Tested behind 9, behind 10, or before 7.
    TwoBehind9,
    TwoBehind10,
    TwoBefore7,
    /// Only with two islands, or only with more.
    TwoIslandsOnly,
    MoreIslandsOnly,
    /// As many stations are refused too, or taken.
    Refuses(u8),
    Takes(u8),
    RefusesEven,
    RefusesUpToTwo,
    /// What a laying of two stations writes that is refused.
    Clears,
    WritesTheHead,
    LaysThree,
}

/// What is wrong with the proposal of one station, by itself or as a pair.
#[derive(Clone, Copy, PartialEq, Debug)]
pub enum Test {
    Taken,
    /// 22 by another number.
    Is(u8),
    NotIdleFirst,
    TwoFirst,
    TwoBeforeZero,
    TwoBeforeAbove,
    /// Refused only there; elsewhere the proposal goes on to 13.
    NotIdleOnly,
    FirstStationOnly,
    SecondStationOnly,
    FreshOnly,
    UntilOneEnds,
    TwoIslandsOnly,
    MoreIslandsOnly,
    /// Tested before the board's own refusals from this one on.
    Before(u8),
    /// 22 on boards of so many stations too.
    On(u8),
    OnEven,
    /// What is altered beside 22.
    PutsIn,
    CountsAStep,
    ClearsTheRecord,
    LaysAnew,
}

/// What is wrong with a list of pairs alone.
#[derive(Clone, Copy, PartialEq, Debug)]
pub enum Pairs {
    TwoBefore20,
    TwiceIs22,
    /// 22 before the 12 of an earlier pair, or 12 before the 22 of one.
    TwoOfAllFirst,
    NoStationOfAllFirst,
    LastAnswers,
    EmptyRefused,
    /// Both stations in one list, or a single pair.
    BothTaken,
    OneTaken,
    PutsInAll,
}

/// What is wrong with a step of two stations.
#[derive(Clone, Copy, PartialEq, Debug)]
pub enum Step {
    SpentDecides,
    DecidesZero,
    DecidesTheOthers,
    DecidesTheLarger,
}

#[derive(Clone, Copy, PartialEq, Debug)]
pub enum Fault {
    None,
    Lays(Lay),
    /// A call that refuses every board of two stations by this number.
    Refuses(Asked, u8),
    /// A board of two stations that is not sound passes for it.
    TakesUnsound,
    RunTakesNothing,
    RoundsTakeNothing,
    Single(Test),
    Paired(Test),
    List(Pairs),
    Steps(Step),
}

use Asked::*;
use Fault::*;

#[rustfmt::skip]
pub const FAULTS: &[Fault] = &[
    Lays(Lay::TakesTwo), Lays(Lay::TwoIs(9)), Lays(Lay::TwoIs(10)), Lays(Lay::TwoIs(12)), Lays(Lay::TwoIs(22)),
    Lays(Lay::TwoBehind9), Lays(Lay::TwoBehind10), Lays(Lay::TwoBefore7), Lays(Lay::TwoIslandsOnly), Lays(Lay::MoreIslandsOnly),
    Lays(Lay::Refuses(1)), Lays(Lay::Refuses(3)), Lays(Lay::Refuses(4)), Lays(Lay::Refuses(16)), Lays(Lay::Takes(0)),
    Lays(Lay::Takes(17)), Lays(Lay::RefusesEven), Lays(Lay::RefusesUpToTwo), Lays(Lay::Clears), Lays(Lay::WritesTheHead),
    Lays(Lay::LaysThree),
    Refuses(Check, 8), Refuses(Asked::Step, 8), Refuses(Standing, 8), Refuses(Run, 8), Refuses(Rounds, 8), Refuses(Show, 8),
    Refuses(Check, 11), Refuses(Check, 22), Refuses(Asked::Step, 22), Refuses(Standing, 22), Refuses(Run, 22),
    Refuses(Rounds, 22), Refuses(Show, 22), TakesUnsound, RunTakesNothing, RoundsTakeNothing,
    Single(Test::Taken), Single(Test::Is(8)), Single(Test::Is(12)), Single(Test::Is(13)), Single(Test::Is(20)),
    Single(Test::NotIdleFirst), Single(Test::TwoFirst), Single(Test::TwoBeforeZero), Single(Test::TwoBeforeAbove),
    Single(Test::NotIdleOnly), Single(Test::FirstStationOnly), Single(Test::SecondStationOnly), Single(Test::FreshOnly),
    Single(Test::UntilOneEnds), Single(Test::TwoIslandsOnly), Single(Test::MoreIslandsOnly), Single(Test::Before(9)),
    Single(Test::Before(10)), Single(Test::Before(11)), Single(Test::On(1)), Single(Test::On(3)), Single(Test::On(4)),
    Single(Test::On(16)), Single(Test::OnEven), Single(Test::PutsIn), Single(Test::CountsAStep), Single(Test::ClearsTheRecord),
    Single(Test::LaysAnew),
    Paired(Test::Taken), Paired(Test::Is(8)), Paired(Test::Is(12)), Paired(Test::Is(13)), Paired(Test::Is(20)),
    Paired(Test::NotIdleFirst), Paired(Test::TwoFirst), Paired(Test::TwoBeforeZero), Paired(Test::TwoBeforeAbove),
    Paired(Test::NotIdleOnly), Paired(Test::FirstStationOnly), Paired(Test::SecondStationOnly), Paired(Test::FreshOnly),
    Paired(Test::UntilOneEnds), Paired(Test::TwoIslandsOnly), Paired(Test::MoreIslandsOnly), Paired(Test::Before(9)),
    Paired(Test::Before(10)), Paired(Test::Before(11)), Paired(Test::On(1)), Paired(Test::On(3)), Paired(Test::On(4)),
    Paired(Test::On(16)), Paired(Test::OnEven), Paired(Test::PutsIn), Paired(Test::CountsAStep), Paired(Test::ClearsTheRecord),
    Paired(Test::LaysAnew),
    List(Pairs::TwoBefore20), List(Pairs::TwiceIs22), List(Pairs::TwoOfAllFirst), List(Pairs::NoStationOfAllFirst),
    List(Pairs::LastAnswers), List(Pairs::EmptyRefused), List(Pairs::BothTaken), List(Pairs::OneTaken), List(Pairs::PutsInAll),
    Steps(self::Step::SpentDecides), Steps(self::Step::DecidesZero), Steps(self::Step::DecidesTheOthers),
    Steps(self::Step::DecidesTheLarger),
];

impl Fault {
    /// What a sheet can meet: its boards fit, and it has none of two stations.
    pub fn is_of_sheets(self) -> bool {
        matches!(self, Lays(lay) if !matches!(lay, Lay::TwoBehind10 | Lay::TwoBefore7))
    }

    /// What shows in what a run decides.
    pub fn is_of_runs(self) -> bool {
        matches!(self, Steps(_))
    }
}
