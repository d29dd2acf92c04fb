//! Faults that a call and a line can have alike: which refusal is answered, and what is put in.

use reference::bytes::Fields;
use reference::calls;
use reference::pairs::{named_twice, Pair};
use reference::refusal::Refusal;

#[derive(Clone, Copy, PartialEq, Debug)]
pub enum Fault {
    None,

    // Which of the refusals comes first.
    TwiceBeforeTheBoard,
    TwiceBehindTheTrial,
    NoStationBeforeTwice,
    NotIdleBeforeTwice,
    NoStationsFirst,
    NotIdlesFirst,
    NoStationIsNotIdle,
    LastAnswered,
    LowestStationFirst,
    HighestStationFirst,

    // When a station is named twice.
    TwiceNeighboursOnly,
    TwiceWithin(usize),
    TwiceTheFirstOnly,
    TwiceOnTheBoardOnly,
    TwiceIdleOnly,
    TwiceNotZero,
    TwiceOtherFiguresOnly,
    TwiceEqualFiguresOnly,
    TwiceEqualFigures,
    TwiceBelow(u8),
    TwiceModulo(u8),
    /// More pairs than stations must name one twice, or one that is not there.
    TwiceIfMoreThanStations,
    NoStationIfMoreThanStations,
    /// It is noticed by trying the pairs on the board as already changed, and so is 13.
    TwiceIsNotIdle,
    FirstOfTwoStays,
    LastOfTwoStays,

    // What is put in.
    PutsInUntilRefused,
    PutsInBeforeTwice,
    PassesOverFaults,
    FirstOnly,
    LastLeftOut,
    SixteenOnly,
    FiguresExchanged,
    FiguresOfTheFirst,
    FiguresByStation,
    ProposalLeftOut,
    CarriedLeftOut,
    CountsAStep,
    WritesM,
    OneMoreStation,
    StationModulo16,
    StationModuloN,
}

use Fault::*;

#[rustfmt::skip]
pub const FAULTS: [Fault; 41] = [
    TwiceBehindTheTrial, NoStationBeforeTwice, NotIdleBeforeTwice, NoStationsFirst, NotIdlesFirst, NoStationIsNotIdle, LastAnswered,
    LowestStationFirst, HighestStationFirst, TwiceNeighboursOnly, TwiceWithin(2), TwiceWithin(4), TwiceTheFirstOnly,
    TwiceOnTheBoardOnly, TwiceIdleOnly, TwiceNotZero, TwiceOtherFiguresOnly, TwiceEqualFiguresOnly, TwiceEqualFigures,
    TwiceBelow(16), TwiceBelow(17), TwiceModulo(16), TwiceModulo(32), TwiceIfMoreThanStations, NoStationIfMoreThanStations,
    TwiceIsNotIdle, FirstOfTwoStays, LastOfTwoStays, PutsInUntilRefused, PutsInBeforeTwice, PassesOverFaults, FirstOnly,
    LastLeftOut, FiguresExchanged, FiguresOfTheFirst, FiguresByStation, CarriedLeftOut, WritesM, OneMoreStation,
    StationModulo16, StationModuloN,
];

/// Faults that no line shows: of boards that are not sound, and of bytes that are not printed.
pub const HIDDEN_FAULTS: [Fault; 3] = [TwiceBeforeTheBoard, ProposalLeftOut, CountsAStep];

/// Faults that show only with numbers or with lists that no line has.
#[rustfmt::skip]
pub const FAR_FAULTS: [Fault; 8] = [
    TwiceWithin(16), TwiceWithin(255), TwiceBelow(64), TwiceBelow(128), TwiceBelow(255), TwiceModulo(64), TwiceModulo(128),
    SixteenOnly,
];

type Answer = Result<(), Refusal>;

impl Fault {
    /// Two pairs that count as the same station, at these places of the list.
    fn one_station(self, board: &[u8], pairs: &[Pair], i: usize, j: usize) -> bool {
        let ((one, x), (two, y)) = (pairs[i], pairs[j]);
        let idle = || calls::propose(&mut board.to_vec(), one, 0).is_ok();
        match self {
            TwiceModulo(width) => one % width == two % width,
            TwiceEqualFigures => one == two || x == y,
            _ if one != two => false,
            TwiceNeighboursOnly => j == i + 1,
            TwiceWithin(distance) => j - i <= distance,
            TwiceTheFirstOnly => i == 0,
            TwiceOnTheBoardOnly => (1..=board[0]).contains(&one),
            TwiceIdleOnly => idle(),
            TwiceNotZero => one != 0,
            TwiceOtherFiguresOnly => x != y,
            TwiceEqualFiguresOnly => x == y,
            TwiceBelow(highest) => one < highest,
            TwiceIsNotIdle | FirstOfTwoStays | LastOfTwoStays => false,
            _ => true,
        }
    }

    fn named_twice(self, board: &[u8], pairs: &[Pair]) -> bool {
        let all = if self == SixteenOnly { &pairs[..pairs.len().min(16)] } else { pairs };
        let last = all.len().min(300);
        (0..last).any(|j| (0..j).any(|i| self.one_station(board, all, i, j)))
    }

    /// 12 and 13 of one pair, on the board as it was.
    fn of_pair(self, board: &[u8], (station, _): Pair) -> Answer {
        match calls::propose(&mut board.to_vec(), station, 0) {
            Err(Refusal::NoSuchStation) if self == NoStationIsNotIdle => Err(Refusal::NotIdle),
            answer => answer,
        }
    }

    /// The pairs in the order in which they are tried.
    fn in_trial_order(self, board: &[u8], pairs: &[Pair]) -> Vec<Pair> {
        let mut order = pairs.to_vec();
        let refused_with = |pair: &Pair, refusal| self.of_pair(board, *pair) != Err(refusal);
        match self {
            NoStationsFirst => order.sort_by_key(|pair| refused_with(pair, Refusal::NoSuchStation)),
            NotIdlesFirst => order.sort_by_key(|pair| refused_with(pair, Refusal::NotIdle)),
            LastAnswered => order.reverse(),
            LowestStationFirst => order.sort_by_key(|pair| pair.0),
            HighestStationFirst => order.sort_by_key(|pair| std::cmp::Reverse(pair.0)),
            SixteenOnly => order.truncate(16),
            _ => {}
        }
        order
    }

    fn tried(self, board: &[u8], pairs: &[Pair]) -> Answer {
        let order = self.in_trial_order(board, pairs);
        let met = |refusal| order.iter().any(|pair| self.of_pair(board, *pair) == Err(refusal));
        let first = order.iter().try_for_each(|pair| self.of_pair(board, *pair));
        let many = pairs.len() > board[0] as usize;
        match self {
            TwiceBehindTheTrial => first?,
            NoStationBeforeTwice if met(Refusal::NoSuchStation) => return Err(Refusal::NoSuchStation),
            NotIdleBeforeTwice if met(Refusal::NotIdle) => return Err(Refusal::NotIdle),
            TwiceIfMoreThanStations if many => return Err(Refusal::NamedTwice),
            NoStationIfMoreThanStations if many => return Err(Refusal::NoSuchStation),
            _ => {}
        }
        if self.named_twice(board, pairs) {
            return Err(Refusal::NamedTwice);
        }
        first?;
        let again = self == TwiceIsNotIdle && named_twice(pairs);
        if again {
            Err(Refusal::NotIdle)
        } else {
            Ok(())
        }
    }

    /// What is put in once all is well.
    fn taken(self, board: &[u8], pairs: &[Pair]) -> Vec<Pair> {
        let figures: Vec<i32> = pairs.iter().map(|pair| pair.1).collect();
        let mut taken = pairs.to_vec();
        match self {
            FirstOnly => taken.truncate(1),
            LastLeftOut => drop(taken.pop()),
            SixteenOnly => taken.truncate(16),
            FiguresExchanged => taken.iter_mut().zip(figures.iter().rev()).for_each(|(pair, v)| pair.1 = *v),
            FiguresOfTheFirst => taken.iter_mut().for_each(|pair| pair.1 = figures[0]),
            FiguresByStation => {
                taken.sort();
                taken.iter_mut().zip(&figures).for_each(|(pair, v)| pair.1 = *v);
            }
            OneMoreStation => taken.extend((1..=board[0]).map(|station| (station, 0))),
            LastOfTwoStays => taken.reverse(),
            _ => {}
        }
        taken
    }

    /// Bytes of the stations' records that come out wrong.
    fn altered(self, board: &mut [u8], pairs: &[Pair]) {
        let mut f = Fields::of_bytes(board);
        for (station, figure) in pairs {
            let who = *station as usize - 1;
            match self {
                ProposalLeftOut => f.records[who].proposal = 0,
                CarriedLeftOut => f.records[who].carried = 0,
                CountsAStep => f.records[who].steps = 1,
                WritesM => (f.m[who].mark, f.m[who].figure) = (1, *figure),
                _ => return,
            }
        }
        board.copy_from_slice(&f.to_bytes());
    }

    /// Single proposals of which those that are refused are passed over.
    fn put_in(board: &mut [u8], pairs: &[Pair]) {
        for (station, figure) in pairs {
            let _ = calls::propose(board, *station, *figure);
        }
    }

    pub fn propose_all(self, board: &mut [u8], pairs: &[Pair]) -> Answer {
        if self == TwiceBeforeTheBoard && named_twice(pairs) {
            return Err(Refusal::NamedTwice);
        }
        calls::check(board)?;
        let n = board[0];
        let renamed = |station: u8| match self {
            StationModulo16 if station > 16 => (station - 1) % 16 + 1,
            StationModuloN if station > n => (station - 1) % n + 1,
            _ => station,
        };
        let pairs: Vec<Pair> = pairs.iter().map(|(station, figure)| (renamed(*station), *figure)).collect();
        let answer = self.tried(board, &pairs);
        let behind =
            |pairs: &[Pair]| pairs.iter().position(|pair| self.of_pair(board, *pair).is_err()).unwrap_or(pairs.len());
        match answer {
            Ok(()) => {
                let taken = self.taken(board, &pairs);
                Fault::put_in(board, &taken);
                self.altered(board, &pairs);
            }
            Err(Refusal::NamedTwice) if self == PutsInBeforeTwice => Fault::put_in(board, &pairs),
            Err(Refusal::NoSuchStation | Refusal::NotIdle) if self == PutsInUntilRefused => {
                let before = behind(&pairs);
                Fault::put_in(board, &pairs[..before]);
            }
            Err(Refusal::NoSuchStation | Refusal::NotIdle) if self == PassesOverFaults => {
                Fault::put_in(board, &pairs);
                return Ok(());
            }
            Err(_) => {}
        }
        answer
    }
}
