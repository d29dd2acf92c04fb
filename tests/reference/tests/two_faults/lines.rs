//! Faults that only a line has: a laying of two stations, and lines that are lent memory with such a board.

use reference::bytes::length;
use reference::halts::Halts;
use reference::sheet::{expanded, Form};
use reference::starts;

#[derive(Clone, Copy, PartialEq, Debug)]
pub enum LineFault {
    None,
    /// What the refused laying leaves for the next line.
    ForgetsTheBoard,
    LaidOfTwo,
    /// Any line but a laying is refused so on two stations.
    Refused5,
    Refused8,
    ShowRefused,
    StepsRefused,
    RoundsRefused,
    StepsPassedOver,
    RoundsPassedOver,
    SingleTaken,
    PairsTaken,
    SingleIs13,
    PairsAre13,
    SingleBefore12,
}

#[rustfmt::skip]
pub const LINE_FAULTS: &[LineFault] = {
    use LineFault::*;
    &[
        ForgetsTheBoard, LaidOfTwo, Refused5, Refused8, ShowRefused, StepsRefused, RoundsRefused, StepsPassedOver,
        RoundsPassedOver, SingleTaken, PairsTaken, SingleIs13, PairsAre13, SingleBefore12,
    ]
};

fn put_in(pairs: &[(u8, i32)], board: &mut [u8]) -> bool {
    let there = pairs.iter().all(|(station, _)| matches!(station, 1 | 2));
    there && pairs.iter().all(|(station, figure)| starts::put_in(board, *station, *figure))
}

fn played(halts: &Halts) -> String {
    format!("(played {} 0)", halts.rounds.len())
}

impl LineFault {
    pub fn is_of_sheets(self) -> bool {
        matches!(self, LineFault::ForgetsTheBoard | LineFault::LaidOfTwo)
    }

    /// How much is said to be laid behind a laying that was refused.
    pub fn laid(self, n: u8, k: u8, before: usize) -> usize {
        match self {
            LineFault::ForgetsTheBoard if n == 2 => 0,
            LineFault::LaidOfTwo if n == 2 => length(n, k),
            _ => before,
        }
    }

    /// What a form prints on a sound board of two stations, unless that is right.
    pub fn printed(self, form: &Form, board: &mut [u8]) -> Option<String> {
        use LineFault::*;
        let refused = |number: u8| Some(format!("(refused {number})"));
        match (self, form) {
            (Refused5, _) => refused(5),
            (Refused8, _) | (ShowRefused, Form::Show) => refused(8),
            (StepsRefused, Form::Steps(_)) | (RoundsRefused, Form::Rounds(_)) => refused(8),
            (StepsPassedOver, Form::Steps(items)) => Some(format!("(ran 0 {})", expanded(items).len())),
            (RoundsPassedOver, Form::Rounds(halts)) if halts.fit(2) => Some(played(halts)),
            (SingleTaken, Form::Propose(i, v)) if put_in(&[(*i, *v)], board) => Some(format!("(proposed {i} {v})")),
            (PairsTaken, Form::ProposeAll(pairs)) if put_in(pairs, board) => {
                Some(format!("(proposed {})", pairs.len()))
            }
            (SingleIs13, Form::Propose(1 | 2, _)) => refused(13),
            (PairsAre13, Form::ProposeAll(pairs)) if matches!(pairs[0].0, 1 | 2) => refused(13),
            (SingleBefore12, Form::Propose(..)) => refused(22),
            _ => Option::None,
        }
    }
}
