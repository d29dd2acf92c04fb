//! Figures put in together: "`(propose (1 -40) (2 15))`, at least one pair. All are accepted or none, and the board
//! afterwards equals that of single proposals in any order."

use crate::model::World;
use crate::refusal::Refusal;

/// A station and its figure.
pub type Pair = (u8, i32);

/// A pair as the one number that a library call is lent: the station in bits 0 to 7, the figure in bits 32 to 63.
pub fn word((station, figure): Pair) -> u64 {
    station as u64 | (figure as u32 as u64) << 32
}

/// Any number is a pair; bits 8 to 31 are not looked at.
pub fn of_word(word: u64) -> Pair {
    (word as u8, (word >> 32) as i32)
}

pub fn of_words(words: &[u64]) -> Vec<Pair> {
    words.iter().copied().map(of_word).collect()
}

/// The line of a sheet.
pub fn line(pairs: &[Pair]) -> String {
    let all: String = pairs.iter().map(|(station, figure)| format!(" ({station} {figure})")).collect();
    format!("(propose{all})")
}

/// Refusal 20: "a station is named twice", whether or not there is such a station.
pub fn named_twice(pairs: &[Pair]) -> bool {
    let mut stations: Vec<u8> = pairs.iter().map(|(station, _)| *station).collect();
    stations.sort();
    stations.windows(2).any(|two| two[0] == two[1])
}

impl World {
    /// "It refuses before 12: 20 .. Then pairs are tried as written, 12 before 13 in each, and the first fault is answered."
    /// Between the two stands 22.
    pub fn tried(&self, pairs: &[Pair]) -> Result<(), Refusal> {
        if named_twice(pairs) {
            return Err(Refusal::NamedTwice);
        }
        pairs.iter().try_for_each(|(station, _)| self.proposer(*station).map(|_| ()))
    }

    /// Single proposals, once it is known that all of them will be accepted.
    pub fn propose_all(&mut self, pairs: &[Pair]) -> Result<(), Refusal> {
        self.tried(pairs)?;
        pairs.iter().try_for_each(|(station, figure)| self.propose(*station, *figure))
    }
}

#[test]
fn a_pair_as_a_number() {
    assert_eq!(word((1, -40)), 0xFFFF_FFD8_0000_0001);
    assert_eq!(word((255, i32::MIN)), 0x8000_0000_0000_00FF);
    assert_eq!(of_word(0x7FFF_FFFF_FFFF_FF00), (0, i32::MAX));
    assert_eq!(of_word(u64::MAX), (255, -1));
    for pair in [(0, 0), (1, 1), (16, i32::MAX), (255, i32::MIN)] {
        assert_eq!(of_word(word(pair) | 0xFFFF_FF00), pair);
    }
    assert_eq!(line(&[(1, -40), (2, 15)]), "(propose (1 -40) (2 15))");
}

#[test]
fn stations_named_twice() {
    let twice = |stations: &[u8]| named_twice(&stations.iter().map(|s| (*s, 0)).collect::<Vec<_>>());
    assert!(!twice(&[]) && !twice(&[0]) && !twice(&[3, 1, 2, 0, 255]));
    assert!(twice(&[1, 1]) && twice(&[0, 5, 0]) && twice(&[255, 1, 2, 3, 255]));
    let all: Vec<u8> = (0..=255).rev().collect();
    assert!(!twice(&all) && twice(&[&all[..], &[7]].concat()));
    assert!(named_twice(&[(1, 1), (1, 2)]));
}
