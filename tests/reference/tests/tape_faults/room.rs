//! Faults of the list that an answer's two numbers go to: how many numbers it must have, what is answered where it has too few,
//! and what of it is written.

use crate::answers::Told;

#[derive(Clone, Copy, PartialEq, Debug)]
pub enum RoomFault {
    Right,

    // How much room is asked for.
    OneIsEnough,
    NoneIsEnough,
    ThreeAreAskedFor,
    ExactlyTwo,

    // What is answered without room.
    AnswersZero,
    AnswersOne,
    Answers254,
    RefusesFirst,

    // What is written without room.
    WritesTheFirst,
    WritesTheSecond,
    ClearsTheShort,

    // What is written with room.
    Nothing,
    OnlyTheFirst,
    OnlyTheSecond,
    Exchanged,
    InOne,
    FromTheSecondOn,
    AtTheEnd,
    ClearsTheRest,
    ClearsTheThird,
    FillsTheRest,
    EndsWithTheAnswer,
    AddsToWhatStands,
    LowHalves,
    LowBytes,
    OtherEnd,
}

use RoomFault::*;

#[rustfmt::skip]
pub const ROOM_FAULTS: [RoomFault; 26] = [
    OneIsEnough, NoneIsEnough, ThreeAreAskedFor, ExactlyTwo, AnswersZero, AnswersOne, Answers254, RefusesFirst,
    WritesTheFirst, WritesTheSecond, ClearsTheShort, Nothing, OnlyTheFirst, OnlyTheSecond, Exchanged, InOne,
    FromTheSecondOn, AtTheEnd, ClearsTheRest, ClearsTheThird, FillsTheRest, EndsWithTheAnswer, AddsToWhatStands,
    LowHalves, LowBytes, OtherEnd,
];

impl RoomFault {
    /// The answer, with its numbers put into the list.
    pub fn put(self, told: Told, refused: bool, list: &mut [u64]) -> u8 {
        let room = list.len();
        let enough = match self {
            NoneIsEnough => true,
            OneIsEnough => room >= 1,
            ThreeAreAskedFor => room >= 3,
            ExactlyTwo => room == 2,
            _ => room >= 2,
        };
        if !enough {
            return self.short(told, refused, list);
        }
        if let Some(two) = told.two {
            self.write(two, told.answer, list);
        }
        told.answer
    }

    fn short(self, told: Told, refused: bool, list: &mut [u64]) -> u8 {
        let two = told.two.unwrap_or_default();
        match self {
            WritesTheFirst => list.iter_mut().zip(two).for_each(|(place, number)| *place = number),
            WritesTheSecond => list.iter_mut().for_each(|place| *place = two[1]),
            ClearsTheShort => list.fill(0),
            _ => {}
        }
        match self {
            AnswersZero => 0,
            AnswersOne => 1,
            Answers254 => 254,
            RefusesFirst if refused => told.answer,
            _ => 255,
        }
    }

    fn write(self, two: [u64; 2], answer: u8, list: &mut [u64]) {
        let both = [0, 1];
        let (from, two) = match self {
            Nothing => return,
            FromTheSecondOn if list.len() > 2 => (1, two),
            AtTheEnd => (list.len().saturating_sub(2), two),
            Exchanged => (0, [two[1], two[0]]),
            InOne => (0, [two[0] << 32 | two[1], 0]),
            LowHalves => (0, both.map(|at| list[at] >> 32 << 32 | two[at] & 0xFFFF_FFFF)),
            LowBytes => (0, both.map(|at| list[at] >> 8 << 8 | two[at] & 0xFF)),
            OtherEnd => (0, two.map(u64::swap_bytes)),
            AddsToWhatStands => (0, both.map(|at| list[at].wrapping_add(two[at]))),
            _ => (0, two),
        };
        let written = match self {
            OnlyTheFirst => 0..1,
            OnlyTheSecond => 1..2,
            _ => 0..2.min(list.len()),
        };
        written.for_each(|at| list[from + at] = two[at]);
        let rest = list.get_mut(2..).unwrap_or_default();
        match self {
            ClearsTheRest => rest.fill(0),
            ClearsTheThird => rest.iter_mut().take(1).for_each(|third| *third = 0),
            FillsTheRest => rest.fill(u64::MAX),
            EndsWithTheAnswer => rest.iter_mut().take(1).for_each(|third| *third = answer as u64),
            _ => {}
        }
    }
}
