//! Halts by the round: "`(rounds k (2) () ..)` names the stations suspended in each round, strictly rising; .. every
//! other going station takes one whole step, a write and its collect, in station order."

use crate::model::{Answer, Standing, Station, World};

/// At most so many stations in a round, and the stations that each round suspends.
#[derive(Clone, PartialEq, Eq, Debug)]
pub struct Halts {
    pub most: u8,
    pub rounds: Vec<Vec<u8>>,
}

/// Ends a round in the list that a library call is lent.
pub const ROUND_END: u8 = 255;

impl Halts {
    /// The last round may lack its end, and nothing after a final end is no round: as with the lines of a sheet.
    pub fn of_bytes(most: u8, named: &[u8]) -> Halts {
        let mut rounds: Vec<Vec<u8>> = named.split(|b| *b == ROUND_END).map(<[u8]>::to_vec).collect();
        if rounds.last().is_some_and(Vec::is_empty) {
            rounds.pop();
        }
        Halts { most, rounds }
    }

    /// A list that means these rounds, each with its end.
    pub fn to_bytes(&self) -> Vec<u8> {
        self.rounds.iter().flat_map(|named| named.iter().copied().chain([ROUND_END])).collect()
    }

    /// The line of a sheet.
    pub fn to_line(&self) -> String {
        let numbers = |named: &Vec<u8>| named.iter().map(u8::to_string).collect::<Vec<_>>().join(" ");
        let rounds: String = self.rounds.iter().map(|named| format!(" ({})", numbers(named))).collect();
        format!("(rounds {}{rounds})", self.most)
    }

    /// Refusal 19: "a round names more than k stations, station 0, one above n, or one out of rising order".
    pub fn fit(&self, n: usize) -> bool {
        self.rounds.iter().all(|named| {
            let there = named.iter().all(|s| (1..=n).contains(&(*s as usize)));
            let rising = named.windows(2).all(|two| two[0] < two[1]);
            named.len() <= self.most as usize && there && rising
        })
    }

    /// "each round spelled out as its single steps": a write and n reads of every station that is not suspended.
    pub fn single_steps(&self, n: u8) -> Vec<u8> {
        let turns = |named: &Vec<u8>| (1..=n).filter(|s| !named.contains(s)).collect::<Vec<u8>>();
        let all = self.rounds.iter().flat_map(turns);
        all.flat_map(|station| std::iter::repeat_n(station, n as usize + 1)).collect()
    }
}

impl World {
    /// Refusal 18: "a going station stands in phase 2, 4 or 6".
    pub fn amid_collect(&self) -> bool {
        let reads = |s: &Station| matches!(s, Station::ReadM(..) | Station::ReadA(..) | Station::ReadB(..));
        self.stations.iter().any(reads)
    }

    /// A write, and reads until the collect is over.
    fn whole_step(&mut self, who: usize) {
        assert_eq!(self.step(who), Ok(Answer::Wrote), "nobody stands in a collect");
        while matches!(self.step(who), Ok(Answer::Read(_))) {}
    }

    pub fn round(&mut self, suspended: &[u8]) {
        for who in 0..self.stations.len() {
            let going = matches!(self.stations[who].standing(), Standing::Going(..));
            if going && !suspended.contains(&(who as u8 + 1)) {
                self.whole_step(who);
            }
        }
    }

    pub fn decided(&self) -> usize {
        self.stations.iter().filter(|s| matches!(s, Station::Decided(_))).count()
    }
}

#[test]
fn lists_of_bytes() {
    let rounds = |named: &[u8]| Halts::of_bytes(3, named).rounds;
    assert_eq!(rounds(&[]), Vec::<Vec<u8>>::new());
    assert_eq!(rounds(&[255]), [vec![]]);
    assert_eq!(rounds(&[2]), [vec![2]]);
    assert_eq!(rounds(&[2, 255]), [vec![2]]);
    assert_eq!(rounds(&[255, 2]), [vec![], vec![2]]);
    assert_eq!(rounds(&[2, 255, 255]), [vec![2], vec![]]);
    assert_eq!(rounds(&[1, 3, 255, 0, 254]), [vec![1, 3], vec![0, 254]]);
}
