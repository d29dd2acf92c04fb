//! One call on the engine and on the reference: the answer and every byte of every lent buffer afterwards, on refusals
//! too. `batches` says which calls are made, on which boards.

use crate::engine::{Engine, Reference};
use crate::left_running::Ends;
use crate::lent::Lent;
use crate::random::Random;
use crate::verdicts::Verdicts;

#[derive(Clone, Copy, Debug)]
pub enum Call<'a> {
    Lay(u8, u8),
    Propose(u8, i32),
    /// Pairs, each as one number.
    ProposeAll(&'a [u64]),
    Check,
    Step(u8),
    Standing(u8),
    Run(&'a [u8]),
    /// At most so many stations in a round, and the list of those that are suspended.
    Rounds(u8, &'a [u8]),
    /// With room for so many bytes.
    Show(usize),
    Word(&'a [u8]),
    /// A line of a sheet, what is said to be laid, and room for so many printed bytes. The board is the whole memory.
    Line(&'a [u8], usize, usize),
}

#[derive(Default, Debug)]
pub struct Counts {
    pub calls: u64,
    /// Those that were put in together.
    pub pairs: u64,
    pub single_steps: u64,
    /// Collects whose totals were counted once more from the boards that were lent.
    pub totals: u64,
    pub run_steps: u64,
    pub rounds: u64,
    pub standings: u64,
    pub lines: u64,
    pub words: u64,
    /// How stations ended that were left alone or propose one figure.
    pub ends: Ends,
    /// Runs and boards of two stations on which somebody has decided, and on which nobody has.
    pub two_decided: u64,
    pub two_undecided: u64,
    /// What was said of two tapes.
    pub tapes: Verdicts,
    /// How often each refusal was the answer of a call on a board; at 0 the accepted calls.
    pub refusals: [u64; 23],
}

impl Counts {
    /// The refusals that calls on a board can meet and did not; 17 is none of them, and 21 is asked of tapes.
    pub fn unmet(&self) -> Vec<usize> {
        (6..self.refusals.len()).filter(|number| ![17, 21].contains(number) && self.refusals[*number] == 0).collect()
    }
}

pub struct Compare<'a> {
    pub engine: &'a dyn Engine,
    pub counts: Counts,
    pub passed: u64,
    pub failed: u64,
    /// The first differences; the others are only counted.
    pub told: Vec<String>,
    /// What lent buffers hold where their content does not matter.
    pub patterns: Random,
    /// Whether one difference is enough, and no more is looked for.
    pub enough: bool,
}

const TOLD: usize = 12;

/// What a call is lent beside the board.
#[derive(Clone, PartialEq, Eq)]
struct Beside {
    /// Only to read: a list of stations or of rounds, or a line of a sheet.
    list: Lent,
    /// Only to read: pairs of stations and figures.
    pairs: Lent<u64>,
    /// To write: the line that is shown or printed.
    line: Lent,
}

/// The packed answer.
fn answer(engine: &dyn Engine, call: Call, board: &mut Lent, beside: &mut Beside) -> u64 {
    let (board, list, line) = (board.content_mut(), beside.list.content_mut(), beside.line.content_mut());
    match call {
        Call::Lay(n, k) => engine.lay(board, n, k) as u64,
        Call::Propose(i, v) => engine.propose(board, i, v) as u64,
        Call::ProposeAll(_) => engine.propose_all(board, beside.pairs.content_mut()) as u64,
        Call::Check => engine.check(board) as u64,
        Call::Step(i) => engine.step(board, i),
        Call::Standing(i) => engine.standing(board, i),
        Call::Run(_) => engine.run(board, list),
        Call::Rounds(most, _) => engine.rounds(board, most, list),
        Call::Show(_) => engine.show(board, line) as u64,
        Call::Word(_) => engine.word(list),
        Call::Line(_, laid, _) => engine.play_line(list, laid, board, line),
    }
}

/// Whether a call that answers so may alter the board, and the line. "A refusal answers its number only and changes no
/// byte": the answer to a line of a sheet is what it prints, and a call that had no room was not made.
fn alters(call: Call, answer: u64, beside: &Beside) -> (bool, bool) {
    let accepted = answer & 0xFF == 0;
    match call {
        Call::Lay(..) | Call::Propose(..) | Call::ProposeAll(_) => (accepted, false),
        Call::Step(_) | Call::Run(_) | Call::Rounds(..) => (accepted, false),
        Call::Check | Call::Standing(_) | Call::Word(_) => (false, false),
        Call::Show(_) => (false, accepted),
        Call::Line(..) => {
            let made = answer != u64::MAX;
            (made && !beside.line.content().starts_with(b"(refused "), made)
        }
    }
}

/// Where two lendings differ, for a reader.
fn difference(ours: &Lent, theirs: &Lent, our_beside: &Beside, their_beside: &Beside) -> String {
    let first = [
        ("byte", "the board", ours.difference(theirs)),
        ("byte", "what is only read", our_beside.list.difference(&their_beside.list)),
        ("number", "the pairs", our_beside.pairs.difference(&their_beside.pairs)),
        ("byte", "the line", our_beside.line.difference(&their_beside.line)),
    ];
    let places = first.iter().filter_map(|(what, name, at)| at.map(|at| format!("{what} {at} of {name} differs")));
    let told: Vec<String> = places.collect();
    if told.is_empty() {
        "no byte differs".to_string()
    } else {
        told.join(", ")
    }
}

fn name(call: Call) -> String {
    match call {
        Call::Run(stations) if stations.len() > 40 => format!("Run of {} steps", stations.len()),
        Call::Rounds(most, named) if named.len() > 80 => format!("Rounds of {} bytes, at most {most}", named.len()),
        Call::ProposeAll(words) if words.len() > 20 => format!("ProposeAll of {} pairs", words.len()),
        Call::ProposeAll(words) => format!("ProposeAll of {words:#x?}").replace("\n", ""),
        Call::Word(text) => format!("Word of {}", text.escape_ascii()),
        Call::Line(text, laid, room) => format!("{} with {laid} laid and room for {room}", text.escape_ascii()),
        _ => format!("{call:?}"),
    }
}

fn hex(board: &[u8]) -> String {
    let most = 400.min(board.len());
    let text: String = board[..most].iter().map(|b| format!("{b:02x}")).collect();
    format!("{} bytes {text}{}", board.len(), if most < board.len() { ".." } else { "" })
}

/// Whether something that is made from the seeds, one after another, tells the engine from the reference.
pub fn differs(engine: &dyn Engine, mut seeds: impl Iterator<Item = u64>, made: impl Fn(&mut Compare, u64)) -> bool {
    let mut compare = Compare { enough: true, ..Compare::new(engine) };
    seeds.any(|seed| {
        made(&mut compare, seed);
        compare.failed > 0
    })
}

impl<'a> Compare<'a> {
    pub fn new(engine: &'a dyn Engine) -> Compare<'a> {
        let patterns = Random::new(0);
        Compare { engine, counts: Counts::default(), passed: 0, failed: 0, told: vec![], patterns, enough: false }
    }

    pub fn verdict(&mut self, same: bool, tell: impl FnOnce() -> String) {
        if same {
            self.passed += 1;
            return;
        }
        self.failed += 1;
        if self.told.len() < TOLD {
            self.told.push(tell());
        }
    }

    /// One difference was enough, and it is there.
    pub fn told_enough(&self) -> bool {
        self.enough && self.failed > 0
    }

    fn beside(&mut self, call: Call) -> Beside {
        let (list, room): (&[u8], usize) = match call {
            Call::Run(list) | Call::Rounds(_, list) => (list, 0),
            Call::Show(room) => (&[], room),
            Call::Word(text) => (text, 0),
            Call::Line(text, _, room) => (text, room),
            _ => (&[], 0),
        };
        let r = &mut self.patterns;
        let pairs = if let Call::ProposeAll(words) = call { Lent::holding(r, words) } else { Lent::default() };
        Beside { list: Lent::holding(r, list), pairs, line: Lent::of_size(r, room) }
    }

    /// One call on two copies of a board. A difference is told, and the copies are made equal again. Answers what the
    /// reference answered.
    pub fn call(&mut self, seed: u64, call: Call, ours: &mut Lent, theirs: &mut Lent) -> u64 {
        let before = ours.clone();
        let beside = self.beside(call);
        let (mut our_beside, mut their_beside) = (beside.clone(), beside.clone());
        let expected = answer(&Reference, call, ours, &mut our_beside);
        let got = answer(self.engine, call, theirs, &mut their_beside);
        self.count(call, expected);
        let (board, line) = alters(call, expected, &our_beside);
        let kept = (board || before == *ours) && (line || beside.line == our_beside.line);
        let read = beside.list == our_beside.list && beside.pairs == our_beside.pairs;
        assert!(kept && read, "the reference altered what must stay: {}", name(call));
        let same = got == expected && ours == theirs && our_beside == their_beside;
        self.verdict(same, || {
            let bytes = difference(ours, theirs, &our_beside, &their_beside);
            let answers = format!("the engine answers {got:#x}, the reference {expected:#x}");
            format!("seed {seed}: {}: {answers}, {bytes}, on {}", name(call), hex(before.content()))
        });
        if !same {
            theirs.become_like(ours);
        }
        expected
    }

    fn count(&mut self, call: Call, answer: u64) {
        match call {
            Call::Word(_) => self.counts.words += 1,
            Call::Line(..) => self.counts.lines += 1,
            _ => self.count_on_board(call, answer),
        }
    }

    fn count_on_board(&mut self, call: Call, answer: u64) {
        self.counts.calls += 1;
        let refusal = (answer & 0xFF) as usize;
        if let Some(times) = self.counts.refusals.get_mut(refusal) {
            *times += 1;
        }
        match call {
            Call::Step(_) if refusal == 0 => self.counts.single_steps += 1,
            Call::Standing(_) => self.counts.standings += 1,
            Call::ProposeAll(words) if refusal == 0 => self.counts.pairs += words.len() as u64,
            Call::Run(_) => self.counts.run_steps += answer >> 8 & 0xFF_FFFF,
            Call::Rounds(..) => self.counts.rounds += answer >> 16,
            _ => {}
        }
    }

    /// Two copies of a board, with the same bytes around them.
    pub fn copies(&mut self, board: &[u8]) -> (Lent, Lent) {
        let ours = Lent::holding(&mut self.patterns, board);
        let theirs = ours.clone();
        (ours, theirs)
    }

    pub fn once(&mut self, seed: u64, call: Call, board: &[u8]) {
        let (mut ours, mut theirs) = self.copies(board);
        self.call(seed, call, &mut ours, &mut theirs);
    }
}
