//! The adopt-commit-max algorithm and Archipelago, on values and one register at a time.
//!
//! Nothing here knows how a board is laid out in bytes. Line numbers are those of the listing in source 001.

use crate::figure::Figure;
use crate::refusal::Refusal;

#[derive(Clone, Copy, PartialEq, Eq, Debug)]
pub enum Mark {
    Written,
    Adopt,
    Commit,
}

#[derive(Clone, Copy, PartialEq, Eq, Debug)]
pub struct Entry {
    pub mark: Mark,
    pub island: u8,
    pub figure: Figure,
}

/// `None` is the listing's ⊥.
pub type Register = Option<Entry>;

/// A collect under way: the position to read next, all that was read and was not ⊥, and how many registers held that.
/// What was heard before a board was lent is a summary, so the list's length does not tell their number.
#[derive(Clone, PartialEq, Eq, Debug, Default)]
pub struct Collect {
    pub next: usize,
    pub heard: Vec<Entry>,
    pub met: u8,
}

/// So many stations are not laid, and take no proposal on a board that has them.
pub const TOO_FEW: u8 = 2;

/// What a station has with it in every phase after its proposal.
#[derive(Clone, Copy, PartialEq, Eq, Debug)]
pub struct Life {
    pub proposal: i32,
    pub island: u8,
    pub carried: i32,
}

#[derive(Clone, PartialEq, Eq, Debug)]
pub enum Station {
    Idle,
    WriteM(Life),
    ReadM(Life, Collect),
    WriteA(Life),
    ReadA(Life, Collect),
    WriteB(Life, Mark),
    ReadB(Life, Mark, Collect),
    Decided(Life),
    Spent(Life),
}

/// "`(i idle)`, `(i going c v)`, `(i decided c v)` or `(i spent c v)`, v the carried figure; phases 1 to 6 are going."
#[derive(Clone, Copy, PartialEq, Eq, Debug)]
pub enum Standing {
    Idle,
    Going(u8, i32),
    Decided(u8, i32),
    Spent(u8, i32),
}

impl Station {
    pub fn standing(&self) -> Standing {
        match self {
            Station::Idle => Standing::Idle,
            Station::Decided(l) => Standing::Decided(l.island, l.carried),
            Station::Spent(l) => Standing::Spent(l.island, l.carried),
            Station::WriteM(l) | Station::WriteA(l) | Station::WriteB(l, _) => Standing::Going(l.island, l.carried),
            Station::ReadM(l, _) | Station::ReadA(l, _) | Station::ReadB(l, _, _) => {
                Standing::Going(l.island, l.carried)
            }
        }
    }
}

/// "It answers with its kind and fields." *Read* "reports whether it met a filled one", and those that end a collect
/// "carry the total as a last field".
#[derive(Clone, Copy, PartialEq, Eq, Debug)]
pub enum Answer {
    Wrote,
    Read(bool),
    Went(u8, i32, u8),
    Marked(Mark, i32, u8),
    Adopted(u8, i32, u8),
    Decided(u8, i32, u8),
    Spent(u8, i32, u8),
}

/// A row per island, a place per station. One list behind it, because boards are taken apart for every call.
#[derive(Clone, PartialEq, Eq, Debug)]
pub struct Rows<T> {
    pub width: usize,
    pub all: Vec<T>,
}

impl<T: Clone> Rows<T> {
    pub fn filled(width: usize, rows: usize, with: T) -> Rows<T> {
        Rows { width, all: vec![with; width * rows] }
    }

    pub fn count(&self) -> usize {
        self.all.len() / self.width
    }

    pub fn row(&self, at: u8) -> &[T] {
        &self.all[at as usize * self.width..][..self.width]
    }

    pub fn row_mut(&mut self, at: u8) -> &mut [T] {
        &mut self.all[at as usize * self.width..][..self.width]
    }
}

/// The shared registers and the stations.
#[derive(Clone, PartialEq, Eq, Debug)]
pub struct World {
    pub m: Vec<Register>,
    pub a: Rows<Register>,
    pub b: Rows<Register>,
    pub stations: Vec<Station>,
    /// "the station's own accepted steps since its proposal", of which the listing knows nothing.
    pub steps: Vec<u16>,
}

impl Collect {
    /// Reads one register. The answer, unless it was the last: then what the whole collect comes to answers.
    fn hear(&mut self, row: &[Register]) -> Option<Answer> {
        let read = row[self.next];
        self.heard.extend(read);
        self.met += read.is_some() as u8;
        self.next += 1;
        (self.next < row.len()).then_some(Answer::Read(read.is_some()))
    }
}

/// Lines 19, 20 and 26: the largest pair. For figures alone every island is 0, so this is their maximum as well.
pub fn largest(heard: &[Entry]) -> Option<Entry> {
    heard.iter().copied().max_by_key(|e| (e.island, e.figure))
}

/// Line 7: what was read, without ⊥, is one figure.
pub fn one_figure(heard: &[Entry]) -> bool {
    heard.first().is_some_and(|one| heard.iter().all(|e| e.figure == one.figure))
}

/// Lines 11 and 13: a commit among what was read. The first one stays, should there be several.
pub fn first_commit(heard: &[Entry]) -> Option<Entry> {
    heard.iter().copied().find(|e| e.mark == Mark::Commit)
}

/// Line 11: what was read, without ⊥, is this one commit.
pub fn only_commit(heard: &[Entry], commit: Entry) -> bool {
    heard.iter().all(|e| *e == commit)
}

/// Lines 7 to 9: the flag and figure to write to B.
fn after_a(heard: &[Entry]) -> (Mark, i32) {
    let best = largest(heard).expect("a sound collect has its own register").figure.number();
    (if one_figure(heard) { Mark::Commit } else { Mark::Adopt }, best)
}

/// Lines 11 to 14: what the object returns.
fn after_b(heard: &[Entry]) -> (Mark, i32) {
    match first_commit(heard) {
        Some(commit) if only_commit(heard, commit) => (Mark::Commit, commit.figure.number()),
        Some(commit) => (Mark::Adopt, commit.figure.number()),
        None => (Mark::Adopt, largest(heard).expect("a sound collect has its own register").figure.number()),
    }
}

impl World {
    pub fn fresh(n: usize, k: usize) -> World {
        World {
            m: vec![None; n],
            a: Rows::filled(n, k, None),
            b: Rows::filled(n, k, None),
            stations: vec![Station::Idle; n],
            steps: vec![0; n],
        }
    }

    pub fn last_island(&self) -> u8 {
        (self.a.count() - 1) as u8
    }

    /// Refusal 12: station numbers start at 1.
    pub fn place(&self, station: u8) -> Result<usize, Refusal> {
        let station = station as usize;
        if station == 0 || station > self.stations.len() {
            return Err(Refusal::NoSuchStation);
        }
        Ok(station - 1)
    }

    /// 12, then "between 12 and 13: 22, a proposal on a two-station board", then 13.
    pub fn proposer(&self, station: u8) -> Result<usize, Refusal> {
        let who = self.place(station)?;
        if self.stations.len() == TOO_FEW as usize {
            return Err(Refusal::TwoStations);
        }
        if self.stations[who] != Station::Idle {
            return Err(Refusal::NotIdle);
        }
        Ok(who)
    }

    pub fn propose(&mut self, station: u8, figure: i32) -> Result<(), Refusal> {
        let who = self.proposer(station)?;
        self.put_in(who, figure);
        Ok(())
    }

    /// "A proposal sets an idle station to phase 1, c = 0, proposal and carried = the figure." Nothing is asked before.
    pub fn put_in(&mut self, who: usize, figure: i32) {
        self.stations[who] = Station::WriteM(Life { proposal: figure, island: 0, carried: figure });
        self.steps[who] = 0;
    }

    /// One register write or one register read of one station.
    pub fn step(&mut self, who: usize) -> Result<Answer, Refusal> {
        match self.stations[who] {
            Station::Idle => return Err(Refusal::Idle),
            Station::Decided(_) => return Err(Refusal::Decided),
            Station::Spent(_) => return Err(Refusal::Spent),
            _ => {}
        }
        let before = std::mem::replace(&mut self.stations[who], Station::Idle);
        let (after, answer) = self.moved(who, before);
        self.stations[who] = after;
        self.steps[who] += 1;
        Ok(answer)
    }

    fn moved(&mut self, who: usize, before: Station) -> (Station, Answer) {
        match before {
            Station::WriteM(l) => {
                self.m[who] = Some(Entry { mark: Mark::Written, island: l.island, figure: Figure::of(l.carried) });
                (Station::ReadM(l, Collect::default()), Answer::Wrote)
            }
            Station::WriteA(l) => {
                let entry = Entry { mark: Mark::Written, island: 0, figure: Figure::of(l.carried) };
                self.a.row_mut(l.island)[who] = Some(entry);
                (Station::ReadA(l, Collect::default()), Answer::Wrote)
            }
            Station::WriteB(l, flag) => {
                let entry = Entry { mark: flag, island: 0, figure: Figure::of(l.carried) };
                self.b.row_mut(l.island)[who] = Some(entry);
                (Station::ReadB(l, flag, Collect::default()), Answer::Wrote)
            }
            Station::ReadM(l, mut collect) => match collect.hear(&self.m) {
                Some(answer) => (Station::ReadM(l, collect), answer),
                None => went(l, &collect),
            },
            Station::ReadA(l, mut collect) => match collect.hear(self.a.row(l.island)) {
                Some(answer) => (Station::ReadA(l, collect), answer),
                None => marked(l, &collect),
            },
            Station::ReadB(l, flag, mut collect) => match collect.hear(self.b.row(l.island)) {
                Some(answer) => (Station::ReadB(l, flag, collect), answer),
                None => returned(l, &collect, self.last_island()),
            },
            done => unreachable!("{done:?} takes no step"),
        }
    }
}

/// Lines 26 and 27: on to the island that m gave, with the figure that m gave.
fn went(life: Life, collect: &Collect) -> (Station, Answer) {
    let best = largest(&collect.heard).expect("a sound collect has its own register");
    let life = Life { island: best.island, carried: best.figure.number(), ..life };
    (Station::WriteA(life), Answer::Went(life.island, life.carried, collect.met))
}

fn marked(life: Life, collect: &Collect) -> (Station, Answer) {
    let (flag, figure) = after_a(&collect.heard);
    (Station::WriteB(Life { carried: figure, ..life }, flag), Answer::Marked(flag, figure, collect.met))
}

/// Lines 28 to 30, and the end of the islands, which the paper does not have.
fn returned(life: Life, collect: &Collect, last: u8) -> (Station, Answer) {
    let (control, figure) = after_b(&collect.heard);
    let life = Life { carried: figure, ..life };
    let (c, total) = (life.island, collect.met);
    if control == Mark::Commit {
        return (Station::Decided(life), Answer::Decided(c, figure, total));
    }
    if c == last {
        return (Station::Spent(life), Answer::Spent(c, figure, total));
    }
    (Station::WriteM(Life { island: c + 1, ..life }), Answer::Adopted(c + 1, figure, total))
}
