//! Run sheets that ask for the most: as many lines as 32,768 bytes hold.

use crate::work::MOST_ROUNDS;
use reference::habits::{self, rising_lines};
use reference::sheet::LONGEST_SHEET;

/// A line may count 65,536 steps, and only steps that are refused can be had so often. 24 bytes a line: 89 million steps.
const FLAT: &str = "(steps (times 65536 1))";

/// Eight brackets, as deep as a line may go: the program reads the items again at each repetition that takes a step.
const NESTED: &str = "(steps (times 65536 (times 1 (times 1 (times 1 (times 1 (times 1 (times 1 1))))))))";

/// The shortest line that looks at a whole board.
const SHOW: &str = "(show)";

/// Three stations with rising figures, which the rounds of `habits::contended` keep from deciding.
fn three(k: u8) -> String {
    format!("(board 3 {k})\n(propose (1 1) (2 2) (3 3))\n")
}

/// All stations end spent, for which a step's refusal is the last that is tested.
fn spent() -> String {
    format!("{}{}\n", three(2), habits::contended(3, 2).to_line())
}

/// A board again and again, on which three stations take every step that they can on all islands; beside each of them, as
/// many that are refused as a line of 255 bytes holds. The steps are those of the same rounds.
fn contended() -> String {
    let turns = |stations: [u8; 3]| stations.map(|station| format!(" (times 4 {station}{})", " 0".repeat(12))).concat();
    format!("{}(steps (times 64 (times 2{}){}))", three(64), turns([1, 2, 3]), turns([2, 3, 1]))
}

/// The largest board, on which all have decided.
fn largest_done() -> String {
    format!("(board 16 64)\n{}(rounds 0 () () () () () ())\n", rising_lines())
}

/// A name, what comes first, and the line or lines that are repeated.
fn kinds() -> [(&'static str, String, String); 5] {
    let largest = format!("(board 16 64)\n{}(steps 1 2 3 4 5 6 7 8 9 10 11 12 13 14 15 16)\n", rising_lines());
    [
        ("flat", spent(), FLAT.to_string()),
        ("nested", spent(), NESTED.to_string()),
        ("contended", String::new(), contended()),
        ("rounds", largest_done(), format!("(rounds 0{})", " ()".repeat(MOST_ROUNDS))),
        ("show", largest, SHOW.to_string()),
    ]
}

/// How often the line fits.
fn room(first: &str, line: &str) -> usize {
    (LONGEST_SHEET - first.len()) / (line.len() + 1)
}

/// The sheet with so many lines, or as many as fit.
pub fn made(name: &str, lines: Option<usize>) -> String {
    let (_, first, line) = kinds().into_iter().find(|kind| kind.0 == name).expect("the name of a sheet");
    let count = lines.unwrap_or(room(&first, &line));
    format!("{first}{}", format!("{line}\n").repeat(count))
}

/// The names of the sheets, with how many lines fit.
pub fn names() -> Vec<(&'static str, usize)> {
    kinds().iter().map(|(name, first, line)| (*name, room(first, line))).collect()
}
