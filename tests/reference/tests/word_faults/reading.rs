//! Faults of whoever reads a word: what the text is taken for that stands in the place of one.

use crate::slips::{pairs, slips};
use reference::word_edges::FORMS;

#[derive(Clone, PartialEq, Debug)]
pub enum Reading {
    Right,
    Missing(&'static str),
    /// The text is taken for the word, too.
    Taken(String, &'static str),
    /// Only the length is compared.
    Length(&'static str),
    FirstLetterAndLength(&'static str),
    /// The letter at this place is not compared.
    AllBut(usize, &'static str),
    /// Anything may stand behind the word.
    Begins(&'static str),
    /// Every beginning of the word is enough.
    Beginnings(&'static str),
    Swapped(&'static str, &'static str),
}

use Reading::*;

/// It is in no text that is tried.
const UNKNOWN: &str = "?";

/// Whether the texts are alike but for the letter at this place.
fn alike_but(at: usize, text: &str, word: &str) -> bool {
    let mut letters = text.bytes().zip(word.bytes()).enumerate();
    text.len() == word.len() && letters.all(|(place, (one, other))| place == at || one == other)
}

impl Reading {
    /// What the text is taken for.
    pub fn reads<'a>(&'a self, text: &'a str) -> &'a str {
        let (taken, word) = match self {
            Right => return text,
            Missing(word) => (text == *word, &UNKNOWN),
            Taken(other, word) => (text == other, word),
            Length(word) => (text.len() == word.len(), word),
            FirstLetterAndLength(word) => (text.len() == word.len() && text[..1] == word[..1], word),
            AllBut(at, word) => (alike_but(*at, text, word), word),
            Begins(word) => (text.starts_with(word), word),
            Beginnings(word) => (word.starts_with(text), word),
            Swapped(one, other) if text == *other => (true, one),
            Swapped(one, other) => (text == *one, other),
        };
        if taken {
            word
        } else {
            text
        }
    }

    /// The call tells where the word of a form stands, not which of them it is, and nothing of an empty one.
    pub fn is_told_by_the_call(&self) -> bool {
        match self {
            Swapped(one, other) => !(FORMS.contains(one) && FORMS.contains(other)),
            Taken(text, _) => !FORMS.contains(&text.as_str()) && !text.is_empty(),
            _ => true,
        }
    }

    /// A line that only shows the board adds nothing to a tape.
    pub fn is_told_by_a_tape(&self) -> bool {
        match self {
            Missing(word) | Taken(_, word) | Length(word) | FirstLetterAndLength(word) => *word != "show",
            AllBut(_, word) | Begins(word) | Beginnings(word) => *word != "show",
            Right | Swapped(..) => true,
        }
    }
}

fn of_word(word: &'static str) -> Vec<Reading> {
    let mut all = vec![Missing(word), Length(word), FirstLetterAndLength(word), Begins(word), Beginnings(word)];
    all.extend((0..word.len()).map(|at| AllBut(at, word)));
    all.extend(slips(word).into_iter().map(|text| Taken(text, word)));
    all
}

/// Each word of a group, and every two of them.
pub fn readings(group: &[&'static str]) -> Vec<Reading> {
    let mut all: Vec<Reading> = group.iter().flat_map(|word| of_word(word)).collect();
    all.extend(pairs(group).into_iter().map(|[one, other]| Swapped(one, other)));
    all
}
