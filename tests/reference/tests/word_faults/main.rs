//! Wrong ways to read and to write words, as a store of all words has them that is wrong in a start, a length, a letter or an
//! index: the comparison of texts in the places of words finds each, and that of what is printed.

mod misreads;
mod reading;
mod slips;
mod writing;

use misreads::{Misreads, Place};
use reading::{readings, Reading};
use reference::compare;
use reference::engine::Engine;
use reference::tapes::{compared, taped};
use reference::word_edges::{judged, texts, ANSWERS, FORMS, ITEM, KINDS, NONE, STATUSES};
use writing::{writings, LinesMiswritten, ShownMiswritten, Writing};

/// By these texts in the places of words; in tapes also by words in the places of kinds.
fn read_otherwise(faulty: &Misreads, texts: &[String]) -> bool {
    compare::differs(faulty, 0..2, |compare, part| match (faulty.place, part) {
        (Place::Call | Place::Line, 0) => compare.texts_in_lines(0, texts),
        (Place::Sheet | Place::Tape, 0) => compare.texts_in_tapes(0, texts),
        (Place::Tape, _) => compare.words_for_kinds(0),
        _ => {}
    })
}

fn printed_otherwise(engine: &dyn Engine) -> bool {
    compare::differs(engine, 0..1, |compare, seed| compare.printed_words(seed))
}

fn at(place: Place, readings: impl IntoIterator<Item = Reading>) -> Vec<Misreads> {
    readings.into_iter().map(|reading| Misreads { place, reading }).collect()
}

/// Each fault in every place where it can be told.
fn misreads() -> Vec<Misreads> {
    let names = [&FORMS[..], &[ITEM]].concat();
    let mut all = at(Place::Call, readings(&FORMS).into_iter().filter(Reading::is_told_by_the_call));
    all.extend(at(Place::Line, readings(&names)));
    all.extend(at(Place::Sheet, readings(&names).into_iter().filter(Reading::is_told_by_a_tape)));
    all.extend(at(Place::Tape, readings(&KINDS)));
    all
}

fn of_lines() -> Vec<Writing> {
    writings(&[&ANSWERS[..], &STATUSES].concat())
}

fn of_shown() -> Vec<Writing> {
    writings(&[&["stations"], &STATUSES[..]].concat())
}

/// What the program writes that tapes a sheet, and the one that compares two tapes.
fn of_programs() -> [(Vec<Writing>, Vec<u8>); 2] {
    let tapes = judged().iter().flat_map(|[sheet, ..]| taped(sheet)).collect();
    let said = judged().iter().flat_map(|[sheet, first, second]| compared(sheet, first, second)).collect();
    [(writings(&[&["refused"], &KINDS[..]].concat()), tapes), (writings(&["refused", NONE]), said)]
}

#[test]
fn what_is_right_passes() {
    let texts = texts();
    for place in [Place::Call, Place::Line, Place::Sheet, Place::Tape] {
        assert!(!read_otherwise(&Misreads { place, reading: Reading::Right }, &texts), "{place:?}");
    }
    assert!(!printed_otherwise(&LinesMiswritten(Writing::Right)));
    assert!(!printed_otherwise(&ShownMiswritten(Writing::Right)));
    assert!(of_programs().iter().all(|(_, right)| Writing::Right.printed(right) == *right));
}

/// Of all texts only those are tried that the fault takes for another one.
#[test]
fn each_fault_of_reading_is_found() {
    let texts = texts();
    for faulty in misreads() {
        let few: Vec<String> = texts.iter().filter(|text| faulty.reading.reads(text) != *text).cloned().collect();
        assert!(read_otherwise(&faulty, &few), "{:?}: {:?}", faulty.place, faulty.reading);
    }
}

/// One letter that is not compared, of each word.
#[test]
fn faults_are_found_among_all_texts() {
    let texts = texts();
    for faulty in misreads().iter().filter(|faulty| matches!(faulty.reading, Reading::AllBut(2, _))) {
        assert!(read_otherwise(faulty, &texts), "{:?}: {:?}", faulty.place, faulty.reading);
    }
}

#[test]
fn each_fault_of_writing_is_found() {
    for writing in of_lines() {
        assert!(printed_otherwise(&LinesMiswritten(writing.clone())), "lines: {writing:?}");
    }
    for writing in of_shown() {
        assert!(printed_otherwise(&ShownMiswritten(writing.clone())), "shown: {writing:?}");
    }
    for (faults, right) in of_programs() {
        for writing in faults {
            assert!(writing.printed(&right) != right, "a program: {writing:?}");
        }
    }
}

#[test]
fn so_many_faults_are_tried() {
    let of = |place: Place| misreads().iter().filter(|faulty| faulty.place == place).count();
    assert_eq!([Place::Call, Place::Line, Place::Sheet, Place::Tape].map(of), [562, 718, 603, 844]);
    assert_eq!([of_lines().len(), of_shown().len()], [1112, 542]);
    assert_eq!(of_programs().map(|(faults, _)| faults.len()), [886, 215]);
}
