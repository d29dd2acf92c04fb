//! Why a call is turned down, in checking order; 18 and 19 are tested after 11, 20 between 11 and 12, 21 after 1, and 22
//! between 12 and 13.

#[derive(Clone, Copy, PartialEq, Eq, Debug)]
#[repr(u8)]
pub enum Refusal {
    SheetTooLong = 1,
    LineTooLong = 2,
    TooDeep = 3,
    NoForm = 4,
    NoBoardYet = 5,
    TooManySteps = 6,
    BoardTooShort = 7,
    StationCount = 8,
    IslandCount = 9,
    BoardLength = 10,
    NotSound = 11,
    NoSuchStation = 12,
    NotIdle = 13,
    Idle = 14,
    Decided = 15,
    Spent = 16,
    ShowTooLong = 17,
    AmidCollect = 18,
    BadRound = 19,
    NamedTwice = 20,
    NoStepAnswer = 21,
    TwoStations = 22,
}

impl Refusal {
    pub fn number(self) -> u8 {
        self as u8
    }
}
