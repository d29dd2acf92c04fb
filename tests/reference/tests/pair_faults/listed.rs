//! Faults of the list that the call alone is lent.

use reference::pairs::{of_word, Pair};

#[derive(Clone, Copy, PartialEq, Debug)]
pub enum ListFault {
    None,
    /// A list of no pair: refused, accepted before the board is looked at, or laid anew.
    EmptyRefused,
    EmptyBeforeTheBoard,
    /// The length counts bytes, or has eight bits.
    LengthInBytes,
    LengthOfAByte,
    /// Where the parts of a number stand.
    FigureFromBit8,
    FigureFromBit16,
    FigureOfSixteenBits,
    FigureWithoutItsSign,
    FigureBelow,
    StationOfSixteenBits,
    StationOfFourBits,
    StationOfSevenBits,
    StationAtBit8,
    HalvesExchanged,
    MostSignificantFirst,
    /// What stands in bits 8 to 31 is asked to be zero, or makes another station of it.
    OtherBitsRefused,
    OtherBitsDiffer,
    WritesThePairs,
    WritesAPair,
    ClearsThePairs,
}

#[rustfmt::skip]
pub const LIST_FAULTS: [ListFault; 20] = {
    use ListFault::*;
    [
        EmptyRefused, EmptyBeforeTheBoard, LengthInBytes, LengthOfAByte, FigureFromBit8, FigureFromBit16, FigureOfSixteenBits,
        FigureWithoutItsSign, FigureBelow, StationOfSixteenBits, StationOfFourBits, StationOfSevenBits, StationAtBit8,
        HalvesExchanged, MostSignificantFirst, OtherBitsRefused, OtherBitsDiffer, WritesThePairs, WritesAPair, ClearsThePairs,
    ]
};

impl ListFault {
    fn pair(self, word: u64) -> Pair {
        let (station, figure) = of_word(word);
        let wide = word & 0xFFFF;
        match self {
            ListFault::FigureFromBit8 => (station, (word >> 8) as i32),
            ListFault::FigureFromBit16 => (station, (word >> 16) as i32),
            ListFault::FigureOfSixteenBits => (station, figure as i16 as i32),
            ListFault::FigureWithoutItsSign => (station, figure.wrapping_abs()),
            ListFault::FigureBelow => (station, figure.wrapping_sub(1)),
            ListFault::StationOfSixteenBits if wide > 255 => (255, figure),
            ListFault::StationOfFourBits => (station & 15, figure),
            ListFault::StationOfSevenBits => (station & 127, figure),
            ListFault::StationAtBit8 => ((word >> 8) as u8, figure),
            ListFault::HalvesExchanged => of_word(word.rotate_left(32)),
            ListFault::MostSignificantFirst => of_word(word.swap_bytes()),
            ListFault::OtherBitsRefused if word & 0xFFFF_FF00 != 0 => (0, figure),
            _ => (station, figure),
        }
    }

    /// What is taken for the list.
    pub fn pairs_of(self, words: &[u64]) -> Vec<Pair> {
        let length = match self {
            ListFault::LengthInBytes => words.len() / 8,
            ListFault::LengthOfAByte => words.len() & 0xFF,
            _ => words.len(),
        };
        words[..length].iter().map(|word| self.pair(*word)).collect()
    }

    /// Two numbers that name one station differ only in bits that nobody looks at, and pass for two.
    pub fn passes_twice(self, words: &[u64]) -> bool {
        let mut low: Vec<u64> = words.iter().map(|word| word & 0xFFFF_FFFF).collect();
        low.sort();
        self == ListFault::OtherBitsDiffer && low.windows(2).all(|two| two[0] != two[1])
    }

    pub fn writes(self, words: &mut [u64]) {
        match self {
            ListFault::WritesThePairs => words.reverse(),
            ListFault::WritesAPair => words.iter_mut().take(1).for_each(|word| *word |= 0x100),
            ListFault::ClearsThePairs => words.iter_mut().for_each(|word| *word &= !0xFFFF_FF00),
            _ => {}
        }
    }
}
