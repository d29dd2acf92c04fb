//! A board of bytes, taken apart in the order in which it stands: bytes to fields, fields to values, and back.
//!
//! Fields are what any bytes of the right length have, sound or not. Values are what a sound board means.

use crate::figure::Figure;
use crate::model::{first_commit, largest, one_figure, only_commit};
use crate::model::{Collect, Entry, Life, Mark, Register, Rows, Station, World};

/// A register has 8 bytes: mark, island, two zeros, figure.
#[derive(Clone, Copy, PartialEq, Eq, Debug, Default)]
pub struct Cell {
    pub mark: u8,
    pub island: u8,
    pub zeros: [u8; 2],
    pub figure: i32,
}

/// A station record of 24 bytes, in the order of its bytes.
#[derive(Clone, Copy, PartialEq, Eq, Debug, Default)]
pub struct Record {
    pub phase: u8,
    pub next: u8,
    pub island: u8,
    pub seen: u8,
    pub best_island: u8,
    pub flag: u8,
    /// Filled registers that the present collect has met.
    pub met: u8,
    pub zero: u8,
    pub proposal: i32,
    pub carried: i32,
    pub best: i32,
    pub steps: u16,
    pub tail: [u8; 2],
}

/// The whole board.
#[derive(Clone, PartialEq, Eq, Debug)]
pub struct Fields {
    pub n: u8,
    pub k: u8,
    pub zeros: [u8; 6],
    pub m: Vec<Cell>,
    pub a: Rows<Cell>,
    pub b: Rows<Cell>,
    pub records: Vec<Record>,
}

/// "Length is exactly 8 + 32n + 16nK."
pub fn length(n: u8, k: u8) -> usize {
    8 + 32 * n as usize + 16 * n as usize * k as usize
}

/// Takes bytes from the front.
struct Front<'a>(&'a [u8]);

impl Front<'_> {
    fn take<const N: usize>(&mut self) -> [u8; N] {
        let (taken, rest) = self.0.split_first_chunk::<N>().expect("the length was tested");
        self.0 = rest;
        *taken
    }

    fn byte(&mut self) -> u8 {
        self.take::<1>()[0]
    }

    fn figure(&mut self) -> i32 {
        i32::from_le_bytes(self.take())
    }

    fn cell(&mut self) -> Cell {
        Cell { mark: self.byte(), island: self.byte(), zeros: self.take(), figure: self.figure() }
    }

    fn row(&mut self, into: &mut [Cell]) {
        into.iter_mut().for_each(|c| *c = self.cell());
    }

    fn record(&mut self) -> Record {
        Record {
            phase: self.byte(),
            next: self.byte(),
            island: self.byte(),
            seen: self.byte(),
            best_island: self.byte(),
            flag: self.byte(),
            met: self.byte(),
            zero: self.byte(),
            proposal: self.figure(),
            carried: self.figure(),
            best: self.figure(),
            steps: u16::from_le_bytes(self.take()),
            tail: self.take(),
        }
    }
}

impl Fields {
    /// The board must have the length that its own first two bytes ask for.
    pub fn of_bytes(board: &[u8]) -> Fields {
        let mut front = Front(board);
        let (n, k, zeros) = (front.byte(), front.byte(), front.take());
        let mut m = vec![Cell::default(); n as usize];
        front.row(&mut m);
        let mut a = Rows::filled(n as usize, k as usize, Cell::default());
        let mut b = a.clone();
        for island in 0..k {
            front.row(a.row_mut(island));
            front.row(b.row_mut(island));
        }
        let records = (0..n).map(|_| front.record()).collect();
        assert!(front.0.is_empty());
        Fields { n, k, zeros, m, a, b, records }
    }

    pub fn to_bytes(&self) -> Vec<u8> {
        let mut out = Vec::with_capacity(length(self.n, self.k));
        out.extend([self.n, self.k]);
        out.extend(self.zeros);
        self.m.iter().for_each(|c| put_cell(&mut out, c));
        for island in 0..self.k {
            self.a.row(island).iter().for_each(|c| put_cell(&mut out, c));
            self.b.row(island).iter().for_each(|c| put_cell(&mut out, c));
        }
        self.records.iter().for_each(|r| put_record(&mut out, r));
        out
    }
}

fn put_cell(out: &mut Vec<u8>, c: &Cell) {
    let f = c.figure.to_le_bytes();
    out.extend([c.mark, c.island, c.zeros[0], c.zeros[1], f[0], f[1], f[2], f[3]]);
}

fn put_record(out: &mut Vec<u8>, r: &Record) {
    out.extend([r.phase, r.next, r.island, r.seen, r.best_island, r.flag, r.met, r.zero]);
    out.extend(r.proposal.to_le_bytes());
    out.extend(r.carried.to_le_bytes());
    out.extend(r.best.to_le_bytes());
    out.extend(r.steps.to_le_bytes());
    out.extend(r.tail);
}

/// Which of the three arrays a register stands in; a collect's summary depends on it.
#[derive(Clone, Copy, PartialEq, Eq)]
enum Array {
    M,
    A,
    B,
}

fn entry(array: Array, mark: u8, island: u8, figure: Figure) -> Entry {
    let mark = match (array, mark) {
        (Array::B, 1) => Mark::Adopt,
        (Array::B, _) => Mark::Commit,
        _ => Mark::Written,
    };
    Entry { mark, island, figure }
}

fn register(array: Array, cell: &Cell) -> Register {
    (cell.mark != 0).then(|| entry(array, cell.mark, cell.island, Figure::of(cell.figure)))
}

fn cell(register: &Register) -> Cell {
    match register {
        None => Cell::default(),
        Some(e) => Cell { mark: mark_byte(e.mark), island: e.island, zeros: [0; 2], figure: e.figure.number() },
    }
}

pub fn mark_byte(mark: Mark) -> u8 {
    match mark {
        Mark::Written | Mark::Adopt => 1,
        Mark::Commit => 2,
    }
}

/// The record is taken at its word for what was read before: this is a shortest list of readings that it sums up.
fn heard(array: Array, r: &Record) -> Vec<Entry> {
    let best = |mark| entry(array, mark, r.best_island, Figure::of(r.best));
    let lower = entry(array, 1, 0, Figure::Lower);
    match (array, r.seen) {
        (_, 0) => vec![],
        (Array::M, _) => vec![best(1)],
        (Array::A, 1) => vec![best(1)],
        (Array::A, _) => vec![best(1), lower],
        (Array::B, 1) => vec![best(1)],
        (Array::B, 2) => vec![best(2)],
        (Array::B, _) => vec![best(2), lower],
    }
}

/// The sum of a list of readings: seen, and the best one.
fn summary(array: Array, heard: &[Entry]) -> (u8, u8, i32) {
    let Some(top) = largest(heard) else { return (0, 0, 0) };
    let (seen, best) = match (array, first_commit(heard)) {
        (Array::M, _) => (1, top),
        (Array::A, _) => (if one_figure(heard) { 1 } else { 2 }, top),
        (Array::B, None) => (1, top),
        (Array::B, Some(commit)) => (if only_commit(heard, commit) { 2 } else { 3 }, commit),
    };
    (seen, best.island, best.figure.number())
}

fn station(r: &Record) -> Station {
    let life = Life { proposal: r.proposal, island: r.island, carried: r.carried };
    let flag = if r.flag == 2 { Mark::Commit } else { Mark::Adopt };
    let collect = |array| Collect { next: r.next as usize, heard: heard(array, r), met: r.met };
    match r.phase {
        0 => Station::Idle,
        1 => Station::WriteM(life),
        2 => Station::ReadM(life, collect(Array::M)),
        3 => Station::WriteA(life),
        4 => Station::ReadA(life, collect(Array::A)),
        5 => Station::WriteB(life, flag),
        6 => Station::ReadB(life, flag, collect(Array::B)),
        7 => Station::Decided(life),
        _ => Station::Spent(life),
    }
}

fn record(station: &Station) -> Record {
    match station {
        Station::Idle => Record::default(),
        Station::WriteM(l) => plain(1, l),
        Station::ReadM(l, c) => reading(plain(2, l), Array::M, c),
        Station::WriteA(l) => plain(3, l),
        Station::ReadA(l, c) => reading(plain(4, l), Array::A, c),
        Station::WriteB(l, f) => Record { flag: mark_byte(*f), ..plain(5, l) },
        Station::ReadB(l, f, c) => Record { flag: mark_byte(*f), ..reading(plain(6, l), Array::B, c) },
        Station::Decided(l) => plain(7, l),
        Station::Spent(l) => plain(8, l),
    }
}

fn plain(phase: u8, l: &Life) -> Record {
    Record { phase, island: l.island, proposal: l.proposal, carried: l.carried, ..Record::default() }
}

fn reading(r: Record, array: Array, c: &Collect) -> Record {
    let (seen, best_island, best) = summary(array, &c.heard);
    Record { next: c.next as u8, seen, best_island, met: c.met, best, ..r }
}

/// The values that a sound board means.
pub fn values(f: &Fields) -> World {
    let list = |array, cells: &[Cell]| cells.iter().map(|c| register(array, c)).collect();
    World {
        m: list(Array::M, &f.m),
        a: Rows { width: f.a.width, all: list(Array::A, &f.a.all) },
        b: Rows { width: f.b.width, all: list(Array::B, &f.b.all) },
        stations: f.records.iter().map(station).collect(),
        steps: f.records.iter().map(|r| r.steps).collect(),
    }
}

/// The only sound board that means these values.
pub fn fields(w: &World) -> Fields {
    let list = |registers: &[Register]| registers.iter().map(cell).collect();
    Fields {
        n: w.m.len() as u8,
        k: w.a.count() as u8,
        zeros: [0; 6],
        m: list(&w.m),
        a: Rows { width: w.a.width, all: list(&w.a.all) },
        b: Rows { width: w.b.width, all: list(&w.b.all) },
        records: w.stations.iter().zip(&w.steps).map(|(s, steps)| Record { steps: *steps, ..record(s) }).collect(),
    }
}
