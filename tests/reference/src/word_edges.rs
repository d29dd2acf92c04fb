//! The words of a run sheet, of its answers and of tapes, by where they stand, and every text near one: were all words kept end to
//! end with their lengths, a wrong start, length or letter would take one of these texts for a word.
//! Relies on the sheets of `tape_edges` for what is printed; `word_batches` puts the texts where words stand.

use crate::tape_edges::{ALONE, CIRCLING};
use crate::tapes::taped;

/// What names a form of a sheet.
pub const FORMS: [&str; 5] = ["board", "propose", "steps", "rounds", "show"];

/// What names an item of steps.
pub const ITEM: &str = "times";

/// What an answer begins with.
pub const ANSWERS: [&str; 6] = ["laid", "proposed", "ran", "played", "stations", "refused"];

/// How a station stands. The last two are kinds too.
pub const STATUSES: [&str; 4] = ["idle", "going", "decided", "spent"];

/// What a tape's line says of a step.
pub const KINDS: [&str; 7] = ["wrote", "read", "went", "marked", "adopted", "decided", "spent"];

/// What is said of two tapes that do not differ.
pub const NONE: &str = "none";

/// All 22, each once.
pub fn words() -> Vec<&'static str> {
    let mut all = [&FORMS[..], &[ITEM], &ANSWERS, &STATUSES, &KINDS, &[NONE]].concat();
    all.sort();
    all.dedup();
    all
}

/// Each letter dropped, doubled, the next one of the alphabet or a capital; every beginning and every end; any letter before the
/// word or behind it.
fn near(word: &str) -> Vec<String> {
    let mut all = vec![word.to_string(), word.to_uppercase()];
    for at in 0..word.len() {
        let (before, from) = word.split_at(at);
        let (letter, behind) = from.split_at(1);
        let next = char::from(letter.as_bytes()[0] + 1).to_string();
        let changes = ["", &letter.repeat(2), &next, &letter.to_uppercase()];
        all.extend(changes.map(|letters| [before, letters, behind].concat()));
        all.extend([before, from].map(str::to_string));
    }
    for letter in 'a'..='z' {
        all.extend([format!("{letter}{word}"), format!("{word}{letter}")]);
    }
    all
}

/// Letters of both words in one piece, as many as a word may have: the end of the first and the beginning of the second.
fn windows(first: &str, second: &str) -> Vec<String> {
    let join = [first, second].concat();
    let mut all = Vec::new();
    for size in 3..=8 {
        let from = (first.len() + 1).saturating_sub(size);
        all.extend((from..first.len()).filter_map(|at| join.get(at..at + size)).map(str::to_string));
    }
    all
}

/// Every text that is tried in the place of a word, the words and the empty one among them.
pub fn texts() -> Vec<String> {
    let words = words();
    let mut all: Vec<String> = words.iter().flat_map(|word| near(word)).collect();
    for (first, second) in words.iter().flat_map(|first| words.iter().map(move |second| (first, second))) {
        all.push([*first, *second].concat());
        all.extend(windows(first, second));
    }
    all.sort();
    all.dedup();
    all
}

/// A sheet that prints every word of an answer and of a standing, `proposed` in both its forms.
pub fn printing() -> String {
    format!("(show)\n(board 3 2)\n(propose (1 7))\n(show)\n{CIRCLING}(show)\n(rounds 0 ())\n{ALONE}(show)\n")
}

/// A sheet of which the tape has every kind.
pub fn of_every_kind() -> String {
    [CIRCLING, ALONE].concat()
}

/// A sheet and two tapes each: none differs, either is blamed, and both refusals.
pub fn judged() -> Vec<[Vec<u8>; 3]> {
    let sheet = of_every_kind().into_bytes();
    let right = taped(&sheet);
    let [wrong, nothing] = [b"(1 read 1)\n", &b"(1 none)\n"[..]].map(<[u8]>::to_vec);
    vec![
        [sheet.clone(), right.clone(), right.clone()],
        [sheet.clone(), right.clone(), wrong.clone()],
        [sheet.clone(), wrong.clone(), right.clone()],
        [sheet, right.clone(), nothing],
        [b"\n".repeat(32_769), right, wrong],
    ]
}

#[cfg(test)]
mod tests {
    use super::*;
    use crate::edges::edges;
    use crate::sheet::play;
    use crate::tapes::compared;

    fn has(printed: &[u8], word: &str) -> bool {
        printed.split(|byte| b" ()\n".contains(byte)).any(|part| part == word.as_bytes())
    }

    #[test]
    fn words_and_texts() {
        let words = words();
        assert_eq!((words.len(), words.concat().len()), (22, 119));
        assert!(words.iter().all(|word| (3..=8).contains(&word.len())));
        let texts = texts();
        assert_eq!(texts.len(), 8290);
        let there = |text: &str| texts.iter().any(|other| other == text);
        assert!(["", "steps", "step", "teps", "stes", "steeps", "stfps", "Steps", "STEPS"].into_iter().all(there));
        assert!(["stepsr", "dsteps", "stepsshow", "tepsr", "dstep", "epssh", "pss", "showstep"].into_iter().all(there));
        assert!(!["steps ", "(steps", "times2", "sho1", "stepsshows"].into_iter().any(there));
    }

    /// By lines that are lent, by the program on sheets at an edge, by the tapes of such sheets, and of two tapes.
    #[test]
    fn every_word_is_printed() {
        let printed = play(printing().as_bytes());
        let by_edges: Vec<u8> = edges().iter().flat_map(|edge| play(&edge.sheet)).collect();
        for word in ANSWERS.into_iter().chain(STATUSES) {
            assert!(has(&printed, word) && has(&by_edges, word), "{word}");
        }
        assert!(KINDS.iter().all(|kind| has(&taped(of_every_kind().as_bytes()), kind)));
        let said: Vec<u8> = judged().iter().flat_map(|[sheet, first, second]| compared(sheet, first, second)).collect();
        assert!(has(&said, NONE) && has(&said, "refused"));
    }
}
