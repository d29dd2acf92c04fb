//! An engine that reads words wrongly in one place and is right otherwise: each text there is replaced by what it is taken for.

use crate::reading::Reading;
use reference::engine::{put_found, put_part, Engine, Reference};
use reference::refusal::Refusal;
use reference::sheet;
use reference::tapes::{self, Culprit};

/// Where words are read.
#[derive(Clone, Copy, PartialEq, Debug)]
pub enum Place {
    /// By the call that tells the word of a form.
    Call,
    /// In a line that is played.
    Line,
    /// In the sheet of two tapes.
    Sheet,
    /// In the tapes.
    Tape,
}

pub struct Misreads {
    pub place: Place,
    pub reading: Reading,
}

/// What stands before the first space or closing bracket, and the rest.
fn split(text: &str) -> (&str, &str) {
    text.split_at(text.find([' ', ')']).unwrap_or(text.len()))
}

/// A line of a sheet. Behind its first bracket stands the word of a form; of steps also those of items, behind the others.
fn sheet_line(reading: &Reading, line: &str) -> String {
    let (mut pieces, mut form) = (Vec::new(), "");
    for (at, piece) in line.split('(').enumerate() {
        let (text, rest) = split(piece);
        let word = if at == 1 || form == "steps" { reading.reads(text) } else { text };
        form = if at == 1 { word } else { form };
        pieces.push([word, rest].concat());
    }
    pieces.join("(")
}

/// A line of a tape, whose second text is the kind.
fn tape_line(reading: &Reading, line: &str) -> String {
    let Some((station, behind)) = line.split_once(' ') else { return line.to_string() };
    let (text, fields) = split(behind);
    format!("{station} {}{fields}", reading.reads(text))
}

impl Misreads {
    /// The lines as they are taken, if it is here that words are read wrongly.
    fn taken(&self, place: Place, text: &[u8], line: fn(&Reading, &str) -> String) -> Vec<u8> {
        let lines = std::str::from_utf8(text).expect("only texts are tried").split('\n');
        if place != self.place {
            return text.to_vec();
        }
        lines.map(|text| line(&self.reading, text)).collect::<Vec<_>>().join("\n").into_bytes()
    }

    /// The culprit's part is that of the tape as it was lent.
    fn judged<'a>(&self, sheet: &[u8], lent: [&'a [u8]; 2]) -> Result<Option<Culprit<'a>>, Refusal> {
        let sheet = self.taken(Place::Sheet, sheet, sheet_line);
        let [first, second] = lent.map(|tape| self.taken(Place::Tape, tape, tape_line));
        let Some(Culprit { number, tape, .. }) = tapes::culprit(&sheet, &first, &second)? else { return Ok(None) };
        let lines = sheet::lines(lent[tape as usize - 1]);
        let start = lines[..number - 1].iter().map(|line| line.len() + 1).sum();
        Ok(Some(Culprit { number, tape, start, part: lines[number - 1] }))
    }
}

impl Engine for Misreads {
    fn rest(&self) -> &dyn Engine {
        &Reference
    }

    fn word(&self, line: &mut [u8]) -> u64 {
        let answer = Reference.word(&mut self.taken(Place::Call, line, sheet_line));
        let length = line.iter().skip(1).take_while(|byte| !b" ()".contains(byte)).count() as u64;
        if answer == 0 || length == 0 {
            0
        } else {
            1 | length << 32
        }
    }

    fn play_line(&self, line: &mut [u8], laid: usize, memory: &mut [u8], printed: &mut [u8]) -> u64 {
        Reference.play_line(&mut self.taken(Place::Line, line, sheet_line), laid, memory, printed)
    }

    fn compare(&self, sheet: &mut [u8], first: &mut [u8], second: &mut [u8], list: &mut [u64]) -> u8 {
        put_found(self.judged(sheet, [first, second]), list)
    }

    fn culprit(&self, sheet: &mut [u8], first: &mut [u8], second: &mut [u8], list: &mut [u64]) -> u8 {
        put_part(self.judged(sheet, [first, second]), list)
    }
}
