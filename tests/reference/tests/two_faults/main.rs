//! Wrong ways to have two stations too few, each of which the comparison of the library's calls finds, and those of layings
//! that of sheets.

mod engine;
mod fault;
mod lines;

use engine::Faulty;
use fault::{Fault, FAULTS};
use lines::{LineFault, LINE_FAULTS};
use reference::bytes::length;
use reference::compare::{self, Compare};
use reference::sheet;
use reference::{edges, sheets};

const RIGHT: Faulty = Faulty { fault: Fault::None, line: LineFault::None };

fn of(fault: Fault) -> Faulty {
    Faulty { fault, ..RIGHT }
}

fn of_lines(line: LineFault) -> Faulty {
    Faulty { line, ..RIGHT }
}

fn batches_find(engine: Faulty) -> bool {
    compare::differs(&engine, 1..40, |compare, seed| compare.batch(seed))
}

/// Every size of a laying, every K, every place of both stations, boards that are refused, and the longest runs.
fn places_find(engine: Faulty) -> bool {
    compare::differs(&engine, 0..6, |compare, part| match part {
        0 => compare.every_laying(0),
        1 => compare.every_k(0),
        2 => compare.every_standing(0),
        3 => compare.the_boards_own_first(0),
        4 => compare.circling_of_two(0),
        _ => compare.figures_of_two(0),
    })
}

/// Lines on memory with a board of two stations.
fn lines_find(engine: Faulty) -> bool {
    compare::differs(&engine, 1..60, |compare, seed| compare.lines_of_two(seed))
}

/// The engine alone, held against what is claimed of runs from a start: no step is compared.
fn claims_find(engine: Faulty) -> bool {
    let mut compare = Compare::new(&engine);
    (0..300).for_each(|seed| compare.list_of_two(seed));
    compare.failed > 0
}

fn played(engine: &Faulty, text: &[u8]) -> Vec<u8> {
    let (mut memory, mut laid, mut out) = (vec![0; length(16, 64)], 0, Vec::new());
    for line in sheet::lines(text) {
        let (printed, after) = engine.line(line, laid, &mut memory);
        laid = after;
        out.extend(printed.bytes().chain([b'\n']));
    }
    out
}

fn differs_on(engine: &Faulty, text: &[u8]) -> bool {
    text.len() <= sheet::LONGEST_SHEET && played(engine, text) != sheet::play(text)
}

fn edges_find(engine: Faulty) -> bool {
    edges::edges().iter().any(|edge| edge.name.contains("stations") && differs_on(&engine, &edge.sheet))
}

fn sheets_find(engine: Faulty) -> bool {
    (1..=400).any(|seed| differs_on(&engine, &sheets::sheet(seed)))
}

#[test]
fn what_is_right_passes() {
    assert!(!batches_find(RIGHT) && !places_find(RIGHT) && !lines_find(RIGHT) && !claims_find(RIGHT));
    assert!(!edges_find(RIGHT) && !sheets_find(RIGHT));
}

#[test]
fn each_fault_is_found_by_calls() {
    for fault in FAULTS {
        assert!(batches_find(of(*fault)), "batches: {fault:?}");
        assert!(places_find(of(*fault)), "places: {fault:?}");
    }
    for fault in LINE_FAULTS {
        assert!(lines_find(of_lines(*fault)), "{fault:?}");
    }
}

/// A sheet meets what is wrong with layings, and nothing of boards that it cannot come to.
#[test]
fn each_fault_of_layings_is_found_by_sheets() {
    for fault in FAULTS.iter().filter(|fault| fault.is_of_sheets()) {
        assert!(edges_find(of(*fault)), "edges: {fault:?}");
        assert!(sheets_find(of(*fault)), "made sheets: {fault:?}");
    }
    for fault in LINE_FAULTS.iter().filter(|fault| fault.is_of_sheets()) {
        assert!(edges_find(of_lines(*fault)), "edges: {fault:?}");
        assert!(sheets_find(of_lines(*fault)), "made sheets: {fault:?}");
    }
}

/// Without the second implementation: whatever decides two figures, or one that the start does not hold.
#[test]
fn what_is_claimed_of_runs_finds_faults() {
    for fault in FAULTS.iter().filter(|fault| fault.is_of_runs()) {
        assert!(claims_find(of(*fault)), "{fault:?}");
    }
}
