//! Which lines are compared, for the calls that are lent a line of a sheet.

use crate::batches::ROOMS;
use crate::boards;
use crate::bytes::length;
use crate::compare::{Call, Compare};
use crate::engine::{Engine, SHOWN};
use crate::lent::pattern;
use crate::random::Random;
use crate::{sheet, sheets};

/// The words that name a form, and words that name none.
#[rustfmt::skip]
const WORDS_AND_NEAR: [&str; 14] = [
    "board", "propose", "steps", "rounds", "show", "times", "", "sho", "shows", "boar", "boards", "round", "roundss",
    "played",
];

impl Compare<'_> {
    /// A sheet, line by line on two memories of which every byte is compared. Some memories are too short for a board of
    /// the sheet. In some sheets the memory comes to harm between lines, or another length is said to be laid.
    pub fn lines(&mut self, seed: u64) {
        let mut r = Random::new(seed);
        let sheet = sheets::sheet(seed);
        let largest = length(16, 64);
        let size = if r.once_in(3) { r.pick(&[0, 7, 8, 199, 200, 1000, largest - 1]) } else { largest + r.below(20) };
        let (mut ours, mut theirs) = self.copies(&pattern(&mut r, size));
        let mut laid = 0;
        let harm = size > 0 && r.once_in(3);
        for line in sheet::lines(&sheet) {
            if harm && laid > 0 && r.once_in(10) {
                ours.content_mut()[r.below(laid.min(size))] = r.below(4) as u8;
                laid = if r.once_in(3) { r.below(size + 1) } else { laid };
                theirs.become_like(&ours);
            }
            let line = with_line_feed(&mut r, line);
            let room = if r.once_in(6) { r.pick(&ROOMS) } else { SHOWN };
            let answer = self.call(seed, Call::Line(&line, laid, room), &mut ours, &mut theirs);
            laid = if answer == u64::MAX { laid } else { (answer >> 16) as usize };
            self.once(seed, Call::Word(&line), &[]);
        }
    }

    /// A memory that is one board, sound or not, and more said to be laid than it has.
    pub fn much_laid(&mut self, seed: u64) {
        let mut r = Random::new(seed);
        let (n, k) = (r.between(1, 4) as u8, r.between(2, 4) as u8);
        let board = boards::sound(&mut r, n, k);
        let board = if r.once_in(2) { boards::resized(&mut r, board) } else { board };
        let size = board.len();
        let most = u32::MAX as usize;
        let propose = format!("(propose {} {})", r.between(0, n as usize + 1), r.figure());
        let lay = format!("(board {n} {k})");
        let (steps, many) = ("(steps (times 9 1 2 3))", "(steps (times 65537 1))");
        let (rounds, unfit) = ("(rounds 1 (1) ())", "(rounds 0 () (1))");
        let (pairs, twice) = ("(propose (1 -40))", "(propose (1 5) (9 1) (1 5))");
        for line in ["(show)", &propose, pairs, twice, steps, many, rounds, unfit, &lay, "(show)\n", "show"] {
            for laid in [0, 1, size / 2, size, size + 1, size + 4096, most, most + 1, usize::MAX] {
                self.once(seed, Call::Line(line.as_bytes(), laid, SHOWN), &board);
            }
        }
    }

    pub fn words(&mut self, seed: u64) {
        let mut r = Random::new(seed);
        for word in WORDS_AND_NEAR {
            for end in ["", " ", ")", "(", "\t", "\n", "x", " 1 2)", "((((((((((((", ")))", "\0"] {
                for start in ["(", "", "((", " (", "( ", "\n("] {
                    self.once(seed, Call::Word(format!("{start}{word}{end}").as_bytes()), &[]);
                }
            }
            let line = sheets::spoilt(&mut r, format!("({word} 1 2)").into_bytes());
            self.once(seed, Call::Word(&line), &[]);
            self.once(seed, Call::Word(&line.repeat(40)), &[]);
        }
    }
}

/// What a line prints that is played on a whole board.
pub fn printed(engine: &dyn Engine, line: &str, board: &mut [u8]) -> String {
    let mut printed = [0; SHOWN];
    let answer = engine.play_line(&mut line.as_bytes().to_vec(), board.len(), board, &mut printed);
    String::from_utf8_lossy(&printed[..answer as usize & 0xFFFF]).into_owned()
}

/// Some lines are lent with a line feed in them, which no sheet's line has.
fn with_line_feed(r: &mut Random, line: &[u8]) -> Vec<u8> {
    let mut line = line.to_vec();
    if r.once_in(12) {
        line.insert(r.pick(&[0, line.len() / 2, line.len()]), b'\n');
    }
    line
}
