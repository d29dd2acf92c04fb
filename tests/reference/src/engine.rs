//! What is compared: the calls as the C interface packs them. `Reference` answers from this package; `linked::Linked`, with
//! the feature `engine`, from the proved library. The bits that a call does not use are zero.

use crate::bytes::mark_byte;
use crate::calls;
use crate::halts::Halts;
use crate::model::{Answer, Standing};
use crate::pairs;
use crate::refusal::Refusal;
use crate::sheet;
use crate::tapes::{self, Culprit};

pub const SHOWN: usize = calls::LONGEST_SHOW;

/// For a list of fewer than two numbers.
pub const NO_ROOM: u8 = 255;

/// Every buffer is lent so that it could be written, also where a call may only read it: whoever writes there is found.
pub trait Engine {
    /// Whose calls those are that this engine does not write out, such as those that a wrong one has right.
    fn rest(&self) -> &dyn Engine;

    /// 0 or the refusal's number.
    fn lay(&self, board: &mut [u8], n: u8, k: u8) -> u8 {
        self.rest().lay(board, n, k)
    }

    fn propose(&self, board: &mut [u8], station: u8, figure: i32) -> u8 {
        self.rest().propose(board, station, figure)
    }

    /// Each number is a pair: bits 0–7 the station, 32–63 the figure.
    fn propose_all(&self, board: &mut [u8], pairs: &mut [u64]) -> u8 {
        self.rest().propose_all(board, pairs)
    }

    fn check(&self, board: &mut [u8]) -> u8 {
        self.rest().check(board)
    }

    /// Bits 0–7 refusal, 8–15 kind, 16–23 island or flag, 24–31 whether the register was filled, or the total, 32–63 figure.
    fn step(&self, board: &mut [u8], station: u8) -> u64 {
        self.rest().step(board, station)
    }

    /// Bits 0–7 refusal, 8–11 how the station stands, 12–19 island, 20–31 steps, 32–63 figure.
    fn standing(&self, board: &mut [u8], station: u8) -> u64 {
        self.rest().standing(board, station)
    }

    /// Bits 0–7 refusal, 8–31 taken, 32–55 passed over.
    fn run(&self, board: &mut [u8], stations: &mut [u8]) -> u64 {
        self.rest().run(board, stations)
    }

    /// Bits 0–7 refusal, 8–15 stations decided, 16–47 rounds played. All bits are 1 where the list's length has more
    /// than 32 bits.
    fn rounds(&self, board: &mut [u8], most: u8, named: &mut [u8]) -> u64 {
        self.rest().rounds(board, most, named)
    }

    /// Bits 0–7 refusal, 16–31 length; the line has zeros after its end. All bits are 1 where it has no room.
    fn show(&self, board: &mut [u8], line: &mut [u8]) -> u32 {
        self.rest().show(board, line)
    }

    /// Bits 0–31 where the word starts, 32–63 its length; 0 with no word.
    fn word(&self, line: &mut [u8]) -> u64 {
        self.rest().word(line)
    }

    /// Bits 0–15 the length of what is printed, without its LF, 16–63 how much is laid afterwards; what is printed has
    /// zeros after its end. All bits are 1 where it has no room or `laid` has more than 32 bits.
    fn play_line(&self, line: &mut [u8], laid: usize, memory: &mut [u8], printed: &mut [u8]) -> u64 {
        self.rest().play_line(line, laid, memory, printed)
    }

    /// Two tapes of a sheet. 0 or the refusal's number; the list begins with the number of the line and the culprit's tape, 0
    /// and 0 for none, and stays as it was beside a refusal. 255 where the list has fewer than two numbers.
    fn compare(&self, sheet: &mut [u8], first: &mut [u8], second: &mut [u8], found: &mut [u64]) -> u8 {
        self.rest().compare(sheet, first, second, found)
    }

    /// The culprit's tape, 0 for none and beside a refusal; the list begins with the place where its line starts in that tape
    /// and the line's length, 0 and 0 for none and beside a refusal. 255 where the list has fewer than two numbers.
    fn culprit(&self, sheet: &mut [u8], first: &mut [u8], second: &mut [u8], part: &mut [u64]) -> u8 {
        self.rest().culprit(sheet, first, second, part)
    }
}

pub struct Reference;

fn number(result: Result<(), Refusal>) -> u8 {
    result.map_or_else(Refusal::number, |()| 0)
}

fn packed(kind: u64, place: u8, figure: i32, met: u8) -> u64 {
    kind << 8 | (place as u64) << 16 | (met as u64) << 24 | (figure as u32 as u64) << 32
}

pub fn packed_answer(answer: Answer) -> u64 {
    match answer {
        Answer::Wrote => packed(1, 0, 0, 0),
        Answer::Read(filled) => packed(2, 0, 0, filled as u8),
        Answer::Went(c, v, total) => packed(3, c, v, total),
        Answer::Marked(flag, v, total) => packed(4, mark_byte(flag), v, total),
        Answer::Adopted(c, v, total) => packed(5, c, v, total),
        Answer::Decided(c, v, total) => packed(6, c, v, total),
        Answer::Spent(c, v, total) => packed(7, c, v, total),
    }
}

pub fn packed_standing((standing, steps): (Standing, u16)) -> u64 {
    let (kind, island, figure) = match standing {
        Standing::Idle => (1, 0, 0),
        Standing::Going(c, v) => (2, c, v),
        Standing::Decided(c, v) => (3, c, v),
        Standing::Spent(c, v) => (4, c, v),
    };
    kind << 8 | (island as u64) << 12 | (steps as u64) << 20 | (figure as u32 as u64) << 32
}

/// The first two numbers of a list that has them; those behind them stay.
fn put(answer: u8, two: Option<[usize; 2]>, list: &mut [u64]) -> u8 {
    let Some(front) = list.first_chunk_mut::<2>() else { return NO_ROOM };
    if let Some(two) = two {
        *front = two.map(|number| number as u64);
    }
    answer
}

/// What the call for the number answers, and what it puts into the list.
pub fn put_found(found: Result<Option<Culprit>, Refusal>, list: &mut [u64]) -> u8 {
    match found {
        Ok(Some(culprit)) => put(0, Some([culprit.number, culprit.tape as usize]), list),
        Ok(None) => put(0, Some([0, 0]), list),
        Err(refusal) => put(refusal.number(), None, list),
    }
}

/// What the call for the part answers, and what it puts into the list.
pub fn put_part(found: Result<Option<Culprit>, Refusal>, list: &mut [u64]) -> u8 {
    match found {
        Ok(Some(culprit)) => put(culprit.tape, Some([culprit.start, culprit.part.len()]), list),
        Ok(None) | Err(_) => put(0, Some([0, 0]), list),
    }
}

/// "512 bytes, zeros after the line"; the bytes behind them stay.
fn handed(text: &str, buffer: &mut [u8]) {
    let (line, zeros) = buffer[..SHOWN].split_at_mut(text.len());
    line.copy_from_slice(text.as_bytes());
    zeros.fill(0);
}

impl Engine for Reference {
    fn rest(&self) -> &dyn Engine {
        unreachable!("it writes every call out")
    }

    fn lay(&self, board: &mut [u8], n: u8, k: u8) -> u8 {
        number(calls::lay(board, n, k))
    }

    fn propose(&self, board: &mut [u8], station: u8, figure: i32) -> u8 {
        number(calls::propose(board, station, figure))
    }

    fn propose_all(&self, board: &mut [u8], pairs: &mut [u64]) -> u8 {
        number(calls::propose_all(board, &pairs::of_words(pairs)))
    }

    fn check(&self, board: &mut [u8]) -> u8 {
        number(calls::check(board))
    }

    fn step(&self, board: &mut [u8], station: u8) -> u64 {
        calls::step(board, station).map_or_else(|r| r.number() as u64, packed_answer)
    }

    fn standing(&self, board: &mut [u8], station: u8) -> u64 {
        calls::standing(board, station).map_or_else(|r| r.number() as u64, packed_standing)
    }

    fn run(&self, board: &mut [u8], stations: &mut [u8]) -> u64 {
        match calls::run(board, stations) {
            Ok((taken, passed)) => (taken as u64) << 8 | (passed as u64) << 32,
            Err(refusal) => refusal.number() as u64,
        }
    }

    fn rounds(&self, board: &mut [u8], most: u8, named: &mut [u8]) -> u64 {
        if named.len() > u32::MAX as usize {
            return u64::MAX;
        }
        match calls::rounds(board, &Halts::of_bytes(most, named)) {
            Ok((played, decided)) => (decided as u64) << 8 | (played as u64) << 16,
            Err(refusal) => refusal.number() as u64,
        }
    }

    fn show(&self, board: &mut [u8], line: &mut [u8]) -> u32 {
        if line.len() < SHOWN {
            return u32::MAX;
        }
        match calls::show(board) {
            Ok(text) => {
                handed(&text, line);
                (text.len() as u32) << 16
            }
            Err(refusal) => refusal.number() as u32,
        }
    }

    fn word(&self, line: &mut [u8]) -> u64 {
        let (start, length) = sheet::word(line);
        if length == 0 {
            0
        } else {
            start as u64 | (length as u64) << 32
        }
    }

    fn play_line(&self, line: &mut [u8], laid: usize, memory: &mut [u8], printed: &mut [u8]) -> u64 {
        if printed.len() < SHOWN || laid > u32::MAX as usize {
            return u64::MAX;
        }
        let (text, after) = sheet::play_line(line, laid, memory);
        handed(&text, printed);
        text.len() as u64 | (after as u64) << 16
    }

    fn compare(&self, sheet: &mut [u8], first: &mut [u8], second: &mut [u8], found: &mut [u64]) -> u8 {
        put_found(tapes::culprit(sheet, first, second), found)
    }

    fn culprit(&self, sheet: &mut [u8], first: &mut [u8], second: &mut [u8], part: &mut [u64]) -> u8 {
        put_part(tapes::culprit(sheet, first, second), part)
    }
}
