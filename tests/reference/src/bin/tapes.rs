//! tapes TAPE COMPARE COUNT SEED: both calls of the linked engine that compare two tapes, beside the reference, on made sheets
//! and tapes, and every byte that they were lent; first every text near a word in sheets and tapes. The program TAPE on sheets
//! at every edge and made ones, and the program COMPARE on files; `-` leaves a program out. A count of 0 goes on for ever, with
//! a line per thousand batches. Where 256 batches or more are asked for, every verdict must have come up.

use reference::compare::Compare;
use reference::edges;
use reference::linked::Linked;
use reference::made_tapes::{short_sheet, two};
use reference::program::{difference, difference_on, WHOLE};
use reference::random::Random;
use reference::sheets;
use reference::tape_edges;
use reference::tapes::{compared, own, taped};
use reference::word_edges;
use std::path::{Path, PathBuf};

/// The program that compares files holds tapes of so many bytes.
const LONGEST_TAPE: usize = 98_304;

fn tape_program(compare: &mut Compare, program: &str, name: &str, sheet: &[u8], piece: usize) {
    if program != "-" {
        let found = difference(program, sheet, &taped(sheet), piece);
        compare.verdict(found.is_none(), || format!("{program}: {name}: {}", found.unwrap_or_default()));
    }
}

/// A sheet and two tapes, each in a file.
fn compare_program(compare: &mut Compare, program: &str, directory: &Path, name: &str, contents: [&[u8]; 3]) {
    let [sheet, first, second] = contents;
    if program == "-" || first.len().max(second.len()) > LONGEST_TAPE {
        return;
    }
    let files: [PathBuf; 3] = ["sheet", "first", "second"].map(|name| directory.join(name));
    for (file, content) in files.iter().zip(contents) {
        std::fs::write(file, content).expect("the directory can be written to");
    }
    let found = difference_on(program, &files, &compared(sheet, first, second));
    compare.verdict(found.is_none(), || format!("{program}: {name}: {}", found.unwrap_or_default()));
}

/// A sheet of few lines with two tapes near its own.
fn made_files(compare: &mut Compare, program: &str, directory: &Path, seed: u64) {
    let mut r = Random::new(seed);
    let sheet = short_sheet(&mut r, seed);
    let [first, second] = two(&mut r, &own(&sheet, usize::MAX));
    compare_program(compare, program, directory, &format!("seed {seed}"), [&sheet, &first, &second]);
}

fn edge_sheets(compare: &mut Compare, program: &str) {
    for edge in edges::edges().iter().chain(&tape_edges::sheets()) {
        tape_program(compare, program, edge.name, &edge.sheet, WHOLE);
    }
    tape_program(compare, program, "far lines", &tape_edges::far_sheet(2), 997);
    println!("the tapes of sheets at every edge: {} passed, {} failed", compare.passed, compare.failed);
}

/// Every text near a word in sheets and in tapes, every word for each kind, and every word that the programs print.
fn words(compare: &mut Compare, programs: [&str; 2], directory: &Path) {
    let (passed, failed, texts) = (compare.passed, compare.failed, word_edges::texts());
    compare.texts_in_tapes(0, &texts);
    compare.words_for_kinds(0);
    for contents in word_edges::judged() {
        let contents = contents.each_ref().map(Vec::as_slice);
        tape_program(compare, programs[0], "words", contents[0], WHOLE);
        compare_program(compare, programs[1], directory, "words", contents);
    }
    let [passed, failed] = [compare.passed - passed, compare.failed - failed];
    println!("{} texts in the places of words, in sheets and tapes: {passed} passed, {failed} failed", texts.len());
}

fn batch(compare: &mut Compare, programs: [&str; 2], directory: &Path, seed: u64) {
    compare.tape_batch(seed);
    if seed % 4 == 0 {
        tape_program(compare, programs[0], &format!("seed {seed}"), &sheets::sheet(seed), WHOLE);
        made_files(compare, programs[1], directory, seed);
    }
}

fn print(compare: &Compare) {
    let v = &compare.counts.tapes;
    println!(
        "{} sheets with two tapes: {} times none, the first tape {}, the second {}",
        v.all(),
        v.none,
        v.first,
        v.second
    );
    println!("refused 1: {}, 21: {}; the farthest line {}", v.sheet_too_long, v.no_step_answer, v.farthest);
}

fn main() {
    let arguments: Vec<String> = std::env::args().collect();
    let [_, tape, comparer, count, seed] = arguments.as_slice() else {
        eprintln!("tapes TAPE COMPARE COUNT SEED");
        std::process::exit(2);
    };
    let (count, first): (u64, u64) = (count.parse().expect("a number"), seed.parse().expect("a number"));
    let directory = std::env::temp_dir().join(format!("tapes-{}", std::process::id()));
    std::fs::create_dir_all(&directory).expect("a directory for files");
    println!("seeds from {first}");
    let mut compare = Compare::new(&Linked);
    edge_sheets(&mut compare, tape);
    words(&mut compare, [tape, comparer], &directory);
    let mut told = 0;
    for at in 0.. {
        for line in &compare.told[told..] {
            println!("{line}");
        }
        told = compare.told.len();
        if count != 0 && at == count {
            break;
        }
        if count == 0 && at > 0 && at % 1000 == 0 {
            println!("to seed {}: {} failed", first.wrapping_add(at - 1), compare.failed);
        }
        batch(&mut compare, [tape, comparer], &directory, first.wrapping_add(at));
    }
    print(&compare);
    let unmet = if count < 256 { vec![] } else { compare.counts.tapes.unmet() };
    unmet.iter().for_each(|verdict| println!("no two tapes came to this: {verdict}"));
    compare.failed += unmet.len() as u64;
    drop(std::fs::remove_dir_all(&directory));
    println!("{} passed, {} failed", compare.passed, compare.failed);
    std::process::exit((compare.failed > 0) as i32);
}
