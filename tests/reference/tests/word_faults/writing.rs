//! Faults of whoever writes a word: what stands in its place in all that is printed, and engines that print so.

use crate::slips::{pairs, slips};
use reference::engine::{Engine, Reference, SHOWN};

#[derive(Clone, PartialEq, Debug)]
pub enum Writing {
    Right,
    /// This text in the place of the word.
    Instead(String, &'static str),
    Swapped(&'static str, &'static str),
}

use Writing::*;

impl Writing {
    fn writes<'a>(&'a self, word: &'a str) -> &'a str {
        match self {
            Instead(text, instead_of) if word == *instead_of => text,
            Swapped(one, other) if word == *one => other,
            Swapped(one, other) if word == *other => one,
            _ => word,
        }
    }

    /// What is printed, with its brackets, spaces and numbers as they are.
    pub fn printed(&self, right: &[u8]) -> Vec<u8> {
        let mut out = String::new();
        for part in std::str::from_utf8(right).expect("plain text").split_inclusive([' ', '(', ')', '\n']) {
            let word = part.trim_end_matches([' ', '(', ')', '\n']);
            out.extend([self.writes(word), &part[word.len()..]]);
        }
        out.into_bytes()
    }

    /// What was handed back in a lent line of this length, and its length then: zeros stand behind it.
    fn handed(&self, line: &mut [u8], length: usize) -> usize {
        let text = self.printed(&line[..length]);
        line[..SHOWN].fill(0);
        line[..text.len()].copy_from_slice(&text);
        text.len()
    }
}

/// Each word of a group, and every two of them.
pub fn writings(group: &[&'static str]) -> Vec<Writing> {
    let of_word = |word: &&'static str| slips(word).into_iter().map(|text| Instead(text, word)).collect::<Vec<_>>();
    let mut all: Vec<Writing> = group.iter().flat_map(of_word).collect();
    all.extend(pairs(group).into_iter().map(|[one, other]| Swapped(one, other)));
    all
}

/// In lines that are played.
pub struct LinesMiswritten(pub Writing);

impl Engine for LinesMiswritten {
    fn rest(&self) -> &dyn Engine {
        &Reference
    }

    fn play_line(&self, line: &mut [u8], laid: usize, memory: &mut [u8], printed: &mut [u8]) -> u64 {
        let answer = Reference.play_line(line, laid, memory, printed);
        let length = self.0.handed(printed, answer as usize & 0xFFFF);
        answer & !0xFFFF | length as u64
    }
}

/// By the call that shows a board.
pub struct ShownMiswritten(pub Writing);

impl Engine for ShownMiswritten {
    fn rest(&self) -> &dyn Engine {
        &Reference
    }

    fn show(&self, board: &mut [u8], line: &mut [u8]) -> u32 {
        let answer = Reference.show(board, line);
        if answer & 0xFF != 0 {
            return answer;
        }
        (self.0.handed(line, answer as usize >> 16) as u32) << 16
    }
}
