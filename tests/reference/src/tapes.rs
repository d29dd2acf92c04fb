//! Two tapes of one run: "each taping every step as a line `(station kind fields)`". The algorithm's own tape of a run sheet,
//! what a tape's line says, and the first line at which two tapes differ, with the tape that is wrong there.
//! Sheets and steps are those of `sheet` and `model`, played on values: no board of bytes is made.

use crate::bytes::mark_byte;
use crate::calls::{laid_counts, MOST_STEPS};
use crate::model::{Answer, Mark, World};
use crate::refusal::Refusal;
use crate::sheet::{self, expanded, expansion, Form, LONGEST_SHEET};
use std::fmt;

/// A step that was taken: whose it was, and what it answered.
#[derive(Clone, Copy, PartialEq, Eq, Debug)]
pub struct Taped {
    pub station: u8,
    pub answer: Answer,
}

/// "fields as in 01 with the flag as 1 or 2 and the total of Five last .. *wrote* has no field, *read* has 1 for a filled
/// register and 0 for an empty one".
impl fmt::Display for Taped {
    fn fmt(&self, f: &mut fmt::Formatter) -> fmt::Result {
        let (kind, place, figure, total) = match self.answer {
            Answer::Wrote => return write!(f, "({} wrote)", self.station),
            Answer::Read(filled) => return write!(f, "({} read {})", self.station, filled as u8),
            Answer::Went(c, v, total) => ("went", c, v, total),
            Answer::Marked(flag, v, total) => ("marked", mark_byte(flag), v, total),
            Answer::Adopted(c, v, total) => ("adopted", c, v, total),
            Answer::Decided(c, v, total) => ("decided", c, v, total),
            Answer::Spent(c, v, total) => ("spent", c, v, total),
        };
        write!(f, "({} {kind} {place} {figure} {total})", self.station)
    }
}

/// The lines of a tape, each with its LF.
pub fn text(tape: &[Taped]) -> Vec<u8> {
    tape.iter().flat_map(|taped| format!("{taped}\n").into_bytes()).collect()
}

/// "a tape line that is no step answer (islands and totals 0 to 99, other numbers as on a sheet)" says nothing. Its words
/// are taken for what they may mean, and that must then be written just so.
pub fn read(line: &[u8]) -> Option<Taped> {
    let text = std::str::from_utf8(line).ok()?;
    let words: Vec<&str> = text.split([' ', '(', ')']).filter(|word| !word.is_empty()).collect();
    let (station, rest) = words.split_first()?;
    let taped = Taped { station: small(station)?, answer: answer(rest)? };
    (taped.to_string() == text).then_some(taped)
}

fn answer(words: &[&str]) -> Option<Answer> {
    let fields = |words: &[&str; 3]| Some((small(words[0])?, words[1].parse::<i32>().ok()?, small(words[2])?));
    Some(match words {
        ["wrote"] => Answer::Wrote,
        ["read", filled] => Answer::Read(small(filled)? > 0),
        [kind, last @ ..] => {
            let (place, figure, total) = fields(last.try_into().ok()?)?;
            match *kind {
                "went" => Answer::Went(place, figure, total),
                "marked" => Answer::Marked(if place == 2 { Mark::Commit } else { Mark::Adopt }, figure, total),
                "adopted" => Answer::Adopted(place, figure, total),
                "decided" => Answer::Decided(place, figure, total),
                "spent" => Answer::Spent(place, figure, total),
                _ => return None,
            }
        }
        [] => return None,
    })
}

fn small(word: &str) -> Option<u8> {
    word.parse().ok().filter(|number| *number <= 99)
}

/// A form on the board that was laid last. What is refused leaves the board and the tape as they are.
fn play(form: Form, board: &mut Option<World>, tape: &mut Vec<Taped>) -> Result<(), Refusal> {
    if let Form::Board(n, k) = form {
        laid_counts(n, k)?;
        *board = Some(World::fresh(n as usize, k as usize));
        return Ok(());
    }
    let world = board.as_mut().ok_or(Refusal::NoBoardYet)?;
    match form {
        Form::Propose(station, figure) => world.propose(station, figure)?,
        Form::ProposeAll(pairs) => world.propose_all(&pairs)?,
        Form::Steps(items) if expansion(&items) > MOST_STEPS as u128 => return Err(Refusal::TooManySteps),
        Form::Steps(items) => step_all(world, &expanded(&items), tape),
        Form::Rounds(_) if world.amid_collect() => return Err(Refusal::AmidCollect),
        Form::Rounds(halts) if !halts.fit(world.stations.len()) => return Err(Refusal::BadRound),
        Form::Rounds(halts) => step_all(world, &halts.single_steps(world.stations.len() as u8), tape),
        Form::Show => {}
        Form::Board(..) => unreachable!("it was laid above"),
    }
    Ok(())
}

/// "refused steps leave no line".
fn step_all(world: &mut World, stations: &[u8], tape: &mut Vec<Taped>) {
    for station in stations {
        let answer = world.place(*station).and_then(|who| world.step(who));
        tape.extend(answer.map(|answer| Taped { station: *station, answer }));
    }
}

/// The algorithm's own tape of a sheet, of which no more lines are asked for. It goes on from board to board.
pub fn own(sheet: &[u8], lines: usize) -> Vec<Taped> {
    let mut board = None;
    let mut tape = Vec::new();
    for form in sheet::lines(sheet).into_iter().flat_map(sheet::read) {
        if tape.len() >= lines {
            break;
        }
        let _ = play(form, &mut board, &mut tape);
    }
    tape.truncate(lines);
    tape
}

/// What the program writes that tapes a whole sheet.
pub fn taped(sheet: &[u8]) -> Vec<u8> {
    if sheet.len() > LONGEST_SHEET {
        return b"(refused 1)\n".to_vec();
    }
    text(&own(sheet, usize::MAX))
}

/// "The culprit's line is returned as a part of that tape".
#[derive(Clone, Copy, PartialEq, Eq, Debug)]
pub struct Culprit<'a> {
    /// "counted from 1".
    pub number: usize,
    /// 1 or 2.
    pub tape: u8,
    /// Where the part starts in that tape.
    pub start: usize,
    /// "The part leaves out the LF."
    pub part: &'a [u8],
}

/// What every line says, or refusal 21.
fn said(tape: &[&[u8]]) -> Result<Vec<Taped>, Refusal> {
    tape.iter().map(|line| read(line).ok_or(Refusal::NoStepAnswer)).collect()
}

/// "find the first line number, counted from 1, at which both have a line and these differ. The culprit's line is .. the
/// first tape's if it departs from the algorithm's own line or the algorithm has none there, else the second's."
pub fn culprit<'a>(sheet: &[u8], first: &'a [u8], second: &'a [u8]) -> Result<Option<Culprit<'a>>, Refusal> {
    if sheet.len() > LONGEST_SHEET {
        return Err(Refusal::SheetTooLong);
    }
    let tapes = [first, second].map(sheet::lines);
    let [ones, twos] = [said(&tapes[0])?, said(&tapes[1])?];
    let Some(at) = ones.iter().zip(&twos).position(|(one, two)| one != two) else { return Ok(None) };
    let tape = if own(sheet, at + 1).get(at) == Some(&ones[at]) { 2 } else { 1 };
    let lines = &tapes[tape - 1];
    let start = lines[..at].iter().map(|line| line.len() + 1).sum();
    Ok(Some(Culprit { number: at + 1, tape: tape as u8, start, part: lines[at] }))
}

/// The line that the program prints which compares two tapes, with its LF.
pub fn compared(sheet: &[u8], first: &[u8], second: &[u8]) -> Vec<u8> {
    match culprit(sheet, first, second) {
        Ok(Some(found)) => [format!("{} {} ", found.number, found.tape).as_bytes(), found.part, b"\n"].concat(),
        Ok(None) => b"none\n".to_vec(),
        Err(refusal) => format!("(refused {})\n", refusal.number()).into_bytes(),
    }
}
