//! Which texts are compared where words stand: every one of `word_edges` as the word of a form and of an item, by the call for the
//! word, in lines and in sheets whose tape is asked for, and as the kind of a tape's line; and every word that is printed.

use crate::bytes::length;
use crate::compare::{Call, Compare};
use crate::engine::SHOWN;
use crate::lent::pattern;
use crate::sheet;
use crate::starts;
use crate::tape_edges::ALONE;
use crate::tapes::taped;
use crate::word_edges::{of_every_kind, printing, words, KINDS};

/// What stands before a text and behind it.
type Around = [&'static str; 2];

/// For the call that tells the word of a form.
const OPENED: [Around; 3] = [["(", ""], ["(", ")"], ["(", " 1 2)"]];

/// Whichever form the text is taken for, or item, one of these lines is then accepted.
const LINES: [Around; 6] =
    [["(", ")"], ["(", " 3 2)"], ["(", " 1 5)"], ["(", " 1 (2))"], ["(", " (3 5))"], ["(steps (", " 2 1))"]];

/// Sheets with one step of station 1 if the text is taken for the form or item that is missing there, and none otherwise.
const SHEETS: [Around; 6] = [
    ["(", " 3 2)\n(propose 1 5)\n(steps 1)\n"],
    ["(board 3 2)\n(", " 1 5)\n(steps 1)\n"],
    ["(board 3 2)\n(", " (1 5))\n(steps 1)\n"],
    ["(board 3 2)\n(propose 1 5)\n(", " 1)\n"],
    ["(board 3 2)\n(propose 1 5)\n(", " 0 ())\n"],
    ["(board 3 2)\n(propose 1 5)\n(steps (", " 1 1))\n"],
];

/// Lines of a tape with the fields of every kind.
const TAPED: [Around; 3] = [["(1 ", ")"], ["(1 ", " 1)"], ["(1 ", " 1 5 1)"]];

impl Compare<'_> {
    /// Each text by the call for the word, and in lines on a board of three stations, of which two have proposed.
    pub fn texts_in_lines(&mut self, seed: u64, texts: &[String]) {
        let board = starts::proposed(3, 2, &[(1, 7), (2, -3)]);
        let memory = [&board[..], &[170; 5]].concat();
        for text in texts {
            if self.told_enough() {
                break;
            }
            for around in OPENED {
                self.once(seed, Call::Word(around.join(text).as_bytes()), &[]);
            }
            for around in LINES {
                self.once(seed, Call::Line(around.join(text).as_bytes(), board.len(), SHOWN), &memory);
            }
        }
    }

    /// Each text in sheets, with two tapes of which the first is right where the sheet has a step; and in a line of either tape.
    pub fn texts_in_tapes(&mut self, seed: u64, texts: &[String]) {
        let [wrote, read] = [b"(1 wrote)\n", &b"(1 read 1)\n"[..]];
        for text in texts {
            for around in SHEETS {
                self.tapes(seed, around.join(text).as_bytes(), wrote, read);
            }
            for around in TAPED {
                let line = around.join(text);
                self.tapes(seed, ALONE.as_bytes(), line.as_bytes(), wrote);
                self.tapes(seed, ALONE.as_bytes(), wrote, line.as_bytes());
            }
        }
    }

    /// Every word in the place of each kind, in a line of the algorithm's own tape.
    pub fn words_for_kinds(&mut self, seed: u64) {
        let sheet = of_every_kind();
        let right = String::from_utf8(taped(sheet.as_bytes())).expect("plain text");
        for kind in KINDS {
            let (before, behind) = right.split_once(kind).expect("it has every kind");
            for word in words() {
                let tape = [before, behind].join(word);
                self.tapes(seed, sheet.as_bytes(), tape.as_bytes(), right.as_bytes());
                self.tapes(seed, sheet.as_bytes(), right.as_bytes(), tape.as_bytes());
            }
        }
    }

    /// Lines that print every word, and the board shown behind each.
    pub fn printed_words(&mut self, seed: u64) {
        let memory = pattern(&mut self.patterns, length(3, 2));
        let (mut ours, mut theirs) = self.copies(&memory);
        let mut laid = 0;
        for line in sheet::lines(printing().as_bytes()) {
            let answer = self.call(seed, Call::Line(line, laid, SHOWN), &mut ours, &mut theirs);
            laid = (answer >> 16) as usize;
            self.once(seed, Call::Show(SHOWN), &ours.content()[..laid]);
        }
    }
}
