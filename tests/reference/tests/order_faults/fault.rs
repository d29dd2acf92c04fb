//! The faults: an order that is wrong in one place where figures are compared or in all of them, or a figure that is not
//! taken for what it is. Everything else is the reference's.

use reference::bytes::{Fields, Record};
use reference::figure::Figure;
use reference::model::{Answer, Collect, Entry, Mark, Register, Station, World};
use reference::refusal::Refusal;
use reference::sound::broken;

/// How the fault orders figures.
#[derive(Clone, Copy, PartialEq, Debug)]
pub enum Order {
    Signed,
    /// Two's complement taken for unsigned numbers.
    Unsigned,
    SmallerIsLarger,
    NegativeIsLarger,
    /// Of equal sizes neither is larger: the one that was read first stays, or the one that was read last displaces it.
    FirstOfASize,
    LastOfASize,
    /// The size of −2,147,483,648 is that number again, or 2,147,483,647.
    SizeWraps,
    SizeStops,
    /// The sign of the sum says which way to compare, and the sum has 32 bits.
    SumWraps,
    /// Twice the size and one more for a positive figure, in 32 bits; or such a number taken for a signed one.
    KeyWraps,
    KeySigned,
}

#[rustfmt::skip]
const ORDERS: [Order; 11] = {
    use Order::*;
    [
        Signed, Unsigned, SmallerIsLarger, NegativeIsLarger, FirstOfASize, LastOfASize, SizeWraps, SizeStops, SumWraps,
        KeyWraps, KeySigned,
    ]
};

impl Order {
    fn below(self, x: i32, y: i32) -> bool {
        let by = |key: fn(i32) -> (i64, bool)| key(x) < key(y);
        match self {
            Order::Signed => x < y,
            Order::Unsigned => (x as u32) < y as u32,
            Order::SmallerIsLarger => Figure::of(x) > Figure::of(y),
            Order::NegativeIsLarger => by(|v| (v.unsigned_abs() as i64, v < 0)),
            Order::FirstOfASize => x.unsigned_abs() < y.unsigned_abs(),
            Order::LastOfASize => x != y && x.unsigned_abs() <= y.unsigned_abs(),
            Order::SizeWraps => by(|v| (v.wrapping_abs() as i64, v > 0)),
            Order::SizeStops => by(|v| (v.saturating_abs() as i64, v > 0)),
            Order::SumWraps if x.wrapping_add(y) < 0 => y < x,
            Order::SumWraps => x < y,
            Order::KeyWraps => by(|v| (v.unsigned_abs().wrapping_mul(2) as i64, v > 0)),
            Order::KeySigned => by(|v| ((v << 1 ^ v >> 31) as i64, false)),
        }
    }
}

/// Where figures are compared: in what soundness asks of phases 2 and 4, and in what is read.
#[derive(Clone, Copy, PartialEq, Debug)]
pub enum At {
    SoundM,
    SoundA,
    M,
    A,
    B,
}

const READING: [At; 3] = [At::M, At::A, At::B];

#[derive(Clone, Copy, PartialEq, Debug)]
pub enum Fault {
    None,
    Orders(Order, At),
    OrdersAll(Order),
    /// Pairs go by figure and then by island.
    FigureFirst(At),
    /// 5 and −5 are one figure, in the registers that are read or in the own register that soundness asks for.
    SizesAreOne(At),
    OwnSizesAreOne,
    /// What is read is kept without its sign.
    SignLost(At),
}

/// Those by which a step goes wrong.
pub fn of_reading() -> Vec<Fault> {
    let mut all: Vec<Fault> = READING.iter().flat_map(|at| ORDERS.map(|order| Fault::Orders(order, *at))).collect();
    all.extend(READING.map(Fault::SignLost));
    all.extend([Fault::FigureFirst(At::M), Fault::SizesAreOne(At::A), Fault::SizesAreOne(At::B)]);
    all
}

/// Those by which a board is taken for sound that is not, or the other way round.
fn of_soundness() -> Vec<Fault> {
    let mut all: Vec<Fault> =
        ORDERS.iter().flat_map(|o| [Fault::Orders(*o, At::SoundM), Fault::Orders(*o, At::SoundA)]).collect();
    all.extend([Fault::FigureFirst(At::SoundM), Fault::OwnSizesAreOne]);
    all
}

pub fn all_faults() -> Vec<Fault> {
    [of_reading(), of_soundness(), ORDERS.map(Fault::OrdersAll).to_vec()].concat()
}

fn same_size(x: Figure, y: Figure) -> bool {
    x.number().unsigned_abs() == y.number().unsigned_abs()
}

impl Fault {
    /// Whether the first pair is lower than the second one. Outside m islands are equal.
    fn below(self, at: At, (i, x): (u8, i32), (j, y): (u8, i32)) -> bool {
        let lower = match self {
            Fault::Orders(order, there) if there == at => order.below(x, y),
            Fault::OrdersAll(order) => order.below(x, y),
            _ => Figure::of(x) < Figure::of(y),
        };
        match self {
            Fault::FigureFirst(there) if there == at => lower || x == y && i < j,
            _ => i < j || i == j && lower,
        }
    }

    fn own_best(self, who: usize, r: &Record) -> bool {
        let (wrote, best) = ((r.island, r.carried), (r.best_island, r.best));
        match r.phase {
            2 if r.next as usize > who => !self.below(At::SoundM, best, wrote),
            4 if r.next as usize > who => !self.below(At::SoundA, (0, best.1), (0, wrote.1)),
            _ => true,
        }
    }

    pub fn sound(self, f: &Fields) -> bool {
        let own = |name: &&str| *name == "own_best" || *name == "own_registers" && self == Fault::OwnSizesAreOne;
        let held = |(who, r): (usize, &Record)| self.own_best(who, r) && self.own_register(f, who, r);
        broken(f).iter().all(own) && f.records.iter().enumerate().all(held)
    }

    /// Asked where the reference's own test of it does not count.
    fn own_register(self, f: &Fields, who: usize, r: &Record) -> bool {
        let cell = match r.phase {
            2 => f.m[who],
            4 => f.a.row(r.island)[who],
            6 => f.b.row(r.island)[who],
            _ => return true,
        };
        let written = (if r.phase == 6 { r.flag } else { 1 }, if r.phase == 2 { r.island } else { 0 });
        (cell.mark, cell.island) == written && same_size(Figure::of(cell.figure), Figure::of(r.carried))
    }

    /// What a collect has heard once it reads this as well: the best, and that others were read if they were.
    fn heard(self, at: At, heard: &[Entry], mut read: Entry) -> Vec<Entry> {
        if self == Fault::SignLost(at) {
            read.figure = Figure::of(read.figure.number().wrapping_abs());
        }
        let Some(best) = heard.first().copied() else { return vec![read] };
        if self == Fault::SizesAreOne(at) && same_size(best.figure, read.figure) {
            read.figure = best.figure;
        }
        if heard.iter().chain([&read]).any(|e| e.mark == Mark::Commit) {
            return [heard, &[read]].concat();
        }
        let pair = |e: Entry| (e.island, e.figure.number());
        let top = if self.below(at, pair(best), pair(read)) { read } else { best };
        let others = heard.len() > 1 || read.figure != best.figure;
        let lower = Entry { figure: Figure::Lower, island: 0, ..top };
        vec![top, lower].into_iter().take(1 + others as usize).collect()
    }

    /// What the station reads is put to what it heard as the fault has it, and counted. Then the reference steps as if the
    /// register were empty, which adds nothing.
    pub fn step(self, world: &mut World, station: u8) -> Result<Answer, Refusal> {
        let who = world.place(station)?;
        let Some((at, island, next)) = reads(&world.stations[who]) else { return world.step(who) };
        let kept = *register(world, at, island, next);
        if let (Some(read), Some(collect)) = (kept, collect(&mut world.stations[who])) {
            collect.heard = self.heard(at, &collect.heard, read);
            collect.met += 1;
        }
        *register(world, at, island, next) = None;
        let answer = world.step(who)?;
        *register(world, at, island, next) = kept;
        Ok(if answer == Answer::Read(false) { Answer::Read(kept.is_some()) } else { answer })
    }
}

/// Which register a station reads next.
fn reads(station: &Station) -> Option<(At, u8, usize)> {
    match station {
        Station::ReadM(_, c) => Some((At::M, 0, c.next)),
        Station::ReadA(l, c) => Some((At::A, l.island, c.next)),
        Station::ReadB(l, _, c) => Some((At::B, l.island, c.next)),
        _ => None,
    }
}

fn register(world: &mut World, at: At, island: u8, next: usize) -> &mut Register {
    match at {
        At::A => &mut world.a.row_mut(island)[next],
        At::B => &mut world.b.row_mut(island)[next],
        _ => &mut world.m[next],
    }
}

fn collect(station: &mut Station) -> Option<&mut Collect> {
    match station {
        Station::ReadM(_, c) | Station::ReadA(_, c) | Station::ReadB(_, _, c) => Some(c),
        _ => None,
    }
}
