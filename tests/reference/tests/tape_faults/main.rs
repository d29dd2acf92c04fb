//! Wrong ways to compare two tapes, each of which the comparison finds: what the algorithm's own tape has, what is read as a line
//! of a tape, which line differs, who is blamed, what the two calls answer, and how they use the list for it.

mod answers;
mod lines;
mod own;
mod player;
mod room;
mod verdict;

use answers::{AnswerFault, ANSWER_FAULTS};
use lines::{LineFault, LINE_FAULTS};
use own::{OwnFault, OWN_FAULTS};
use reference::compare::{self, Compare};
use reference::engine::{Engine, Reference};
use reference::{edges, tape_edges, tapes};
use room::{RoomFault, ROOM_FAULTS};
use verdict::{Case, Found, VerdictFault, VERDICT_FAULTS};

#[derive(Clone, Copy)]
struct Faulty {
    own: OwnFault,
    line: LineFault,
    verdict: VerdictFault,
    answer: AnswerFault,
    room: RoomFault,
}

const RIGHT: Faulty = Faulty {
    own: OwnFault::Right,
    line: LineFault::Right,
    verdict: VerdictFault::Right,
    answer: AnswerFault::Right,
    room: RoomFault::Right,
};

impl Faulty {
    fn judged(&self, sheet: &[u8], first: &[u8], second: &[u8]) -> Result<Option<Found>, u8> {
        let tapes = [first, second].map(|tape| self.line.lines(tape));
        self.verdict.judged(&Case { own: self.own, line: self.line, sheet, tapes })
    }
}

impl Engine for Faulty {
    fn rest(&self) -> &dyn Engine {
        &Reference
    }

    fn compare(&self, sheet: &mut [u8], first: &mut [u8], second: &mut [u8], list: &mut [u64]) -> u8 {
        let found = self.judged(sheet, first, second);
        self.answer.writes(sheet, [first, second]);
        self.room.put(self.answer.number(found), found.is_err(), list)
    }

    fn culprit(&self, sheet: &mut [u8], first: &mut [u8], second: &mut [u8], list: &mut [u64]) -> u8 {
        let found = self.judged(sheet, first, second);
        let lengths = [first.len(), second.len()];
        self.answer.writes_part(found, [first, second]);
        self.room.put(self.answer.part(found, lengths), found.is_err(), list)
    }
}

/// A part of what is compared.
type Part = fn(&mut Compare);

/// Whether one of these parts tells the wrong way from the right one, tried in this order.
fn finds(faulty: Faulty, parts: &[Part]) -> bool {
    compare::differs(&faulty, 0..parts.len() as u64, |compare, at| parts[at as usize](compare))
}

fn made_find(faulty: Faulty) -> bool {
    compare::differs(&faulty, 1..60, |compare, seed| compare.tape_batch(seed))
}

const SHEETS: [Part; 2] = [|compare| compare.edge_tapes(0), |compare| compare.edge_sheets(0)];
const LINES: [Part; 2] = [|compare| compare.each_text(0), |compare| compare.each_byte_of_lines(0)];
const FAR: [Part; 2] = [|compare| compare.far_lines(0), |compare| compare.farthest_line(0)];
const ROOMS: [Part; 1] = [|compare| compare.each_room(0)];
const EVERYTHING: [Part; 7] = [LINES[0], SHEETS[0], SHEETS[1], FAR[0], FAR[1], LINES[1], ROOMS[0]];

/// Those that need a line or a sheet which is seldom made: too long, far, or with bytes of its own.
#[rustfmt::skip]
const SELDOM: [&str; 17] = [
    "SheetOneByteLess", "SheetOneByteMore", "LongLinesPlay", "SixAddsTheFirst", "SixAddsAll", "MostIsRefused",
    "CarriageReturnsEndLines", "SpacesBehind", "Tabs", "MinusZero", "OtherWords", "OneBehind21", "TooLongIsPlayed",
    "LinesOfSixteenBits", "NumberInSixteenBits", "StartInSixteenBits", "StartIn24Bits",
];

fn named<T: Copy + std::fmt::Debug, const N: usize>(
    all: [T; N],
    faulty: impl Fn(T) -> Faulty,
) -> Vec<(String, Faulty)> {
    all.iter().map(|fault| (format!("{fault:?}"), faulty(*fault))).collect()
}

fn of_own() -> Vec<(String, Faulty)> {
    named(OWN_FAULTS, |own| Faulty { own, ..RIGHT })
}

fn of_lines() -> Vec<(String, Faulty)> {
    named(LINE_FAULTS, |line| Faulty { line, ..RIGHT })
}

fn of_verdicts() -> Vec<(String, Faulty)> {
    named(VERDICT_FAULTS, |verdict| Faulty { verdict, ..RIGHT })
}

fn of_answers() -> Vec<(String, Faulty)> {
    named(ANSWER_FAULTS, |answer| Faulty { answer, ..RIGHT })
}

fn of_rooms() -> Vec<(String, Faulty)> {
    named(ROOM_FAULTS, |room| Faulty { room, ..RIGHT })
}

/// What the program writes that tapes a sheet.
fn taped(own: OwnFault, sheet: &[u8]) -> Vec<u8> {
    if sheet.len() > own.longest_sheet() {
        return b"(refused 1)\n".to_vec();
    }
    own.tape(sheet, usize::MAX).iter().flat_map(|line| format!("{line}\n").into_bytes()).collect()
}

fn taped_otherwise(own: OwnFault) -> bool {
    let mut sheets = edges::edges().into_iter().chain(tape_edges::sheets());
    sheets.any(|edge| taped(own, &edge.sheet) != tapes::taped(&edge.sheet))
}

#[test]
fn what_is_right_passes() {
    assert!(!made_find(RIGHT) && !finds(RIGHT, &EVERYTHING) && !taped_otherwise(OwnFault::Right));
}

#[test]
fn faults_of_the_own_tape_are_found_by_what_is_taped() {
    for own in OWN_FAULTS {
        assert!(taped_otherwise(own), "{own:?}");
    }
}

#[test]
fn faults_of_the_own_tape_are_found_by_sheets_at_an_edge() {
    for (name, faulty) in of_own() {
        assert!(finds(faulty, &SHEETS), "{name}");
    }
}

#[test]
fn faults_of_lines_are_found_by_lines_at_an_edge() {
    for (name, faulty) in of_lines() {
        assert!(finds(faulty, &LINES), "{name}");
    }
}

#[test]
fn faults_of_verdicts_and_answers_are_found_at_an_edge() {
    for (name, faulty) in of_verdicts().into_iter().chain(of_answers()) {
        assert!(finds(faulty, &EVERYTHING), "{name}");
    }
}

#[test]
fn faults_of_lists_are_found_by_lists_of_every_length() {
    for (name, faulty) in of_rooms() {
        assert!(finds(faulty, &ROOMS), "{name}");
    }
}

#[test]
fn faults_are_found_by_made_tapes() {
    for (name, faulty) in [of_own(), of_lines(), of_verdicts(), of_answers(), of_rooms()].concat() {
        assert!(SELDOM.contains(&name.as_str()) || made_find(faulty), "{name}");
    }
}
