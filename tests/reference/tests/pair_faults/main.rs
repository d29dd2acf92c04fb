//! Wrong ways to put figures in together, each of which the comparison of the library's call finds, and that of sheets.

mod fault;
mod lines;
mod listed;

use fault::{Fault, FAR_FAULTS, FAULTS, HIDDEN_FAULTS};
use lines::{LineFault, LINE_FAULTS};
use listed::{ListFault, LIST_FAULTS};
use reference::bytes::length;
use reference::compare;
use reference::engine::{Engine, Reference};
use reference::refusal::Refusal;
use reference::sheet;
use reference::{edges, sheets};

/// Only the call that puts figures in together is wrong.
struct Faulty(Fault, ListFault);

impl Faulty {
    fn put_in(&self, board: &mut [u8], words: &[u64]) -> Result<(), Refusal> {
        let Faulty(fault, list_fault) = self;
        if words.is_empty() && *list_fault == ListFault::EmptyBeforeTheBoard {
            return Ok(());
        }
        reference::calls::check(board)?;
        if words.is_empty() && *list_fault == ListFault::EmptyRefused {
            return Err(Refusal::NoSuchStation);
        }
        if list_fault.passes_twice(words) {
            return Fault::FirstOfTwoStays.propose_all(board, &list_fault.pairs_of(words));
        }
        fault.propose_all(board, &list_fault.pairs_of(words))
    }
}

impl Engine for Faulty {
    fn rest(&self) -> &dyn Engine {
        &Reference
    }

    fn propose_all(&self, board: &mut [u8], pairs: &mut [u64]) -> u8 {
        let answer = match self.0 {
            Fault::TwiceBeforeTheBoard => self.0.propose_all(board, &self.1.pairs_of(pairs)),
            _ => self.put_in(board, pairs),
        };
        self.1.writes(pairs);
        answer.map_or_else(Refusal::number, |()| 0)
    }
}

fn batches_find(fault: Fault, list_fault: ListFault) -> bool {
    compare::differs(&Faulty(fault, list_fault), 1..40, |compare, seed| compare.batch(seed))
}

/// Every place of a fault and of a repeat, every number, and long lists.
fn places_find(fault: Fault, list_fault: ListFault) -> bool {
    compare::differs(&Faulty(fault, list_fault), 0..4, |compare, part| match part {
        0 => compare.each_fault(0),
        1 => compare.each_repeat(0),
        2 => compare.each_number(0),
        _ => compare.many_pairs(0),
    })
}

/// The engine beside itself: single proposals in several orders, and what a refused list leaves.
fn singles_find(fault: Fault) -> bool {
    compare::differs(&Faulty(fault, ListFault::None), 1..400, |compare, seed| {
        compare.in_any_order(seed);
        compare.all_or_none(seed);
    })
}

/// A line, of which only pairs are read, put in and told wrongly.
fn played_line(fault: Fault, line_fault: LineFault, line: &[u8], laid: &mut usize, memory: &mut [u8]) -> String {
    let pairs = match line_fault.read(line) {
        Err(printed) => return printed.to_string(),
        Ok(Some(pairs)) if *laid > 0 => pairs,
        Ok(Some(_)) => return "(refused 5)".to_string(),
        Ok(None) => {
            let (printed, after) = sheet::play_line(line, *laid, memory);
            *laid = after;
            return line_fault.printed_single(printed);
        }
    };
    match fault.propose_all(&mut memory[..*laid], &pairs) {
        Ok(()) => line_fault.printed(memory[0], &pairs),
        Err(refusal) => format!("(refused {})", refusal.number()),
    }
}

fn played(fault: Fault, line_fault: LineFault, text: &[u8]) -> Vec<u8> {
    let (mut memory, mut laid, mut out) = (vec![0; length(16, 64)], 0, Vec::new());
    for line in sheet::lines(text) {
        let printed = played_line(fault, line_fault, line, &mut laid, &mut memory);
        out.extend(printed.bytes().chain([b'\n']));
    }
    out
}

fn sheets_find(fault: Fault, line_fault: LineFault) -> bool {
    let differs =
        |text: &[u8]| text.len() <= sheet::LONGEST_SHEET && played(fault, line_fault, text) != sheet::play(text);
    (1..=400).any(|seed| differs(&sheets::sheet(seed)))
}

fn edges_find(fault: Fault, line_fault: LineFault) -> bool {
    let pairs = edges::edges().into_iter().filter(|edge| edge.name.contains("pairs"));
    pairs.into_iter().any(|edge| played(fault, line_fault, &edge.sheet) != sheet::play(&edge.sheet))
}

#[test]
fn what_is_right_passes() {
    assert!(!batches_find(Fault::None, ListFault::None) && !places_find(Fault::None, ListFault::None));
    assert!(!singles_find(Fault::None));
    assert!(!sheets_find(Fault::None, LineFault::None) && !edges_find(Fault::None, LineFault::None));
}

#[test]
fn each_fault_is_found_by_calls() {
    for fault in FAULTS.into_iter().chain(HIDDEN_FAULTS) {
        assert!(batches_find(fault, ListFault::None), "batches: {fault:?}");
    }
    for fault in FAULTS.into_iter().chain(HIDDEN_FAULTS).chain(FAR_FAULTS) {
        assert!(places_find(fault, ListFault::None), "places: {fault:?}");
    }
    for fault in LIST_FAULTS {
        let found = batches_find(Fault::None, fault) || places_find(Fault::None, fault);
        assert!(found, "{fault:?}");
    }
}

#[test]
fn each_fault_is_found_by_sheets() {
    for fault in FAULTS {
        assert!(edges_find(fault, LineFault::None), "edges: {fault:?}");
        assert!(sheets_find(fault, LineFault::None), "made sheets: {fault:?}");
    }
    for fault in LINE_FAULTS {
        assert!(edges_find(Fault::None, fault), "edges: {fault:?}");
        assert!(sheets_find(Fault::None, fault), "made sheets: {fault:?}");
    }
}

/// Without the second implementation: whatever differs from single proposals, or alters a board that is refused. Its boards
/// are sound.
#[test]
fn single_proposals_find_faults() {
    let hidden = HIDDEN_FAULTS.into_iter().filter(|fault| *fault != Fault::TwiceBeforeTheBoard);
    for fault in FAULTS.into_iter().chain(hidden) {
        assert!(singles_find(fault), "{fault:?}");
    }
}
