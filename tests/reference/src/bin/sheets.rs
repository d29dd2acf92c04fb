//! sheets PROGRAM COUNT SEED: plays made sheets through the program and compares all it prints with the reference, and
//! plays rounds beside their single steps, and figures put in together beside single proposals.
//! A count of 0 goes on for ever.

use reference::sheet::{lines, play};
use reference::{edges, habits, pair_lists, program, sheets, shorten};

/// Shortening runs the program often, so only the first failures are shortened.
const SHORTENED: u64 = 5;

struct Tally {
    passed: u64,
    failed: u64,
    lines: u64,
    refused: u64,
    steps: u64,
    rounds: u64,
    pairs: u64,
}

impl Tally {
    fn compare(&mut self, name: &str, program: &str, sheet: &[u8], piece: usize) {
        let expected = play(sheet);
        self.count(&expected);
        match program::difference(program, sheet, &expected, piece) {
            None => self.passed += 1,
            Some(difference) => {
                self.failed += 1;
                println!("{name}: {difference}");
                if self.failed <= SHORTENED {
                    print_shortened(program, sheet, piece);
                }
            }
        }
    }

    fn count(&mut self, expected: &[u8]) {
        for line in lines(expected) {
            self.lines += 1;
            self.refused += line.starts_with(b"(refused") as u64;
            self.steps += first_number(line, b"(ran ");
            self.rounds += first_number(line, b"(played ");
            self.pairs += together(line);
        }
    }

    /// Two sheets that must show the same, both by the program alone.
    fn compare_twins(&mut self, name: &str, program: &str, twins: [Vec<u8>; 2]) {
        let run = |sheet: &Vec<u8>| program::run(program, sheet, program::WHOLE).map(|e| e.printed).unwrap_or_default();
        let [one, other] = [run(&twins[0]), run(&twins[1])];
        self.count(&one);
        self.count(&other);
        if !habits::shown(&one).is_empty() && habits::shown(&one) == habits::shown(&other) {
            self.passed += 1;
            return;
        }
        self.failed += 1;
        println!("{name} do not show the same");
        if self.failed <= SHORTENED {
            print!("{}{}", String::from_utf8_lossy(&twins[0]), String::from_utf8_lossy(&one));
        }
    }

    fn print(&self) {
        println!(
            "{} comparisons, {} lines, {} of them refused, {} steps taken in runs, {} rounds played, {} pairs put in",
            self.passed + self.failed,
            self.lines,
            self.refused,
            self.steps,
            self.rounds,
            self.pairs
        );
    }
}

fn number(digits: &[u8]) -> Option<u64> {
    std::str::from_utf8(digits).ok()?.parse().ok()
}

/// The number behind the word of an answer, 0 for another answer.
fn first_number(line: &[u8], word: &[u8]) -> u64 {
    line.strip_prefix(word).and_then(|rest| number(rest.split(|b| *b == b' ').next()?)).unwrap_or(0)
}

/// The pairs of an accepted line; the answer to a single proposal has two numbers.
fn together(line: &[u8]) -> u64 {
    line.strip_prefix(b"(proposed ").and_then(|rest| number(rest.strip_suffix(b")")?)).unwrap_or(0)
}

/// Only sheets that fail with every line ended by LF can be shortened line by line.
fn print_shortened(program: &str, sheet: &[u8], piece: usize) {
    let fails = |sheet: &[u8]| program::difference(program, sheet, &play(sheet), piece).is_some();
    let all: Vec<Vec<u8>> = lines(sheet).iter().map(|l| l.to_vec()).collect();
    if !fails(&shorten::joined(&all)) {
        println!("  the sheet has {} bytes and fails only as a whole", sheet.len());
        return;
    }
    for line in shorten::shorten(all, fails) {
        println!("  {}", line.escape_ascii());
    }
}

fn main() {
    let arguments: Vec<String> = std::env::args().collect();
    let [_, program, count, seed] = arguments.as_slice() else {
        eprintln!("sheets PROGRAM COUNT SEED");
        std::process::exit(2);
    };
    let (count, first): (u64, u64) = (count.parse().expect("a number"), seed.parse().expect("a number"));
    let mut tally = Tally { passed: 0, failed: 0, lines: 0, refused: 0, steps: 0, rounds: 0, pairs: 0 };
    for edge in edges::edges() {
        tally.compare(edge.name, program, &edge.sheet, program::WHOLE);
        tally.compare(edge.name, program, &edge.sheet, 997);
    }
    println!("edges: {} passed, {} failed", tally.passed, tally.failed);
    println!("seeds from {first}");
    for at in 0.. {
        if count != 0 && at == count {
            break;
        }
        let seed = first.wrapping_add(at);
        let piece = if seed % 8 == 0 { seed as usize % 61 + 1 } else { program::WHOLE };
        tally.compare(&format!("seed {seed}"), program, &sheets::sheet(seed), piece);
        let name = format!("rounds of seed {seed} and their single steps");
        tally.compare_twins(&name, program, habits::twins(seed));
        let name = format!("pairs of seed {seed} and single proposals");
        tally.compare_twins(&name, program, pair_lists::twins(seed));
        if (at + 1) % 1000 == 0 {
            print!("to seed {seed}: {} failed; ", tally.failed);
            tally.print();
        }
    }
    tally.print();
    println!("{} passed, {} failed", tally.passed, tally.failed);
    std::process::exit((tally.failed > 0) as i32);
}
