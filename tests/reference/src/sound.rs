//! "A board that keeps all this is sound": the clauses, one function each, with the document's sentence.

use crate::bytes::{Cell, Fields, Record};
use crate::figure::Figure;

pub struct Clause {
    pub name: &'static str,
    pub holds: fn(&Fields) -> bool,
}

macro_rules! clauses {
    ($($name:ident),* $(,)?) => {
        pub const CLAUSES: &[Clause] = &[$(Clause { name: stringify!($name), holds: $name }),*];
    };
}

clauses! {
    head_zeros, register_zeros, empty_registers, marks, islands_in_m, no_islands_in_a_and_b,
    phases, positions, islands, seen_ranges, best_islands, flags, record_zeros, idle_records,
    outside_collects, best_island_outside_m, flag_outside_b, nothing_seen, own_registers, own_seen, own_best,
    registers_met, steps_taken,
}

pub fn sound(f: &Fields) -> bool {
    CLAUSES.iter().all(|clause| (clause.holds)(f))
}

/// The clauses that a board breaks, by name.
pub fn broken(f: &Fields) -> Vec<&'static str> {
    CLAUSES.iter().filter(|clause| !(clause.holds)(f)).map(|clause| clause.name).collect()
}

fn every_register(f: &Fields, holds: impl Fn(&Cell) -> bool) -> bool {
    f.m.iter().chain(&f.a.all).chain(&f.b.all).all(holds)
}

fn every_record(f: &Fields, holds: impl Fn(&Record) -> bool) -> bool {
    f.records.iter().all(holds)
}

fn in_a_collect(r: &Record) -> bool {
    matches!(r.phase, 2 | 4 | 6)
}

/// "Head, 8 bytes: n, K, six zeros."
fn head_zeros(f: &Fields) -> bool {
    f.zeros == [0; 6]
}

/// "A register has 8 bytes: mark, island, two zeros, figure."
fn register_zeros(f: &Fields) -> bool {
    every_register(f, |c| c.zeros == [0; 2])
}

/// "An empty register is all zero."
fn empty_registers(f: &Fields) -> bool {
    every_register(f, |c| c.mark != 0 || *c == Cell::default())
}

/// "Marks: m and A 1 written; B 1 adopt, 2 commit."
fn marks(f: &Fields) -> bool {
    f.m.iter().chain(&f.a.all).all(|c| c.mark <= 1) && f.b.all.iter().all(|c| c.mark <= 2)
}

/// "The island byte is below K in m .."
fn islands_in_m(f: &Fields) -> bool {
    f.m.iter().all(|c| c.island < f.k)
}

/// ".. and zero in A and B."
fn no_islands_in_a_and_b(f: &Fields) -> bool {
    f.a.all.iter().chain(&f.b.all).all(|c| c.island == 0)
}

/// "byte 0 phase (0 idle, 1 write m, .. 8 spent)"
fn phases(f: &Fields) -> bool {
    every_record(f, |r| r.phase <= 8)
}

/// "1 next position to read, 0 to n − 1"
fn positions(f: &Fields) -> bool {
    every_record(f, |r| r.next < f.n)
}

/// "2 island c, below K"
fn islands(f: &Fields) -> bool {
    every_record(f, |r| r.island < f.k)
}

/// "Seen in phase 2: 0 nothing, 1 something. In 4: 0 .. 2 different figures. In 6: 0 .. 3 a commit beside .."
fn seen_ranges(f: &Fields) -> bool {
    every_record(f, |r| match r.phase {
        2 => r.seen <= 1,
        4 => r.seen <= 2,
        6 => r.seen <= 3,
        _ => true,
    })
}

/// "4 best island, below K"
fn best_islands(f: &Fields) -> bool {
    every_record(f, |r| r.best_island < f.k)
}

/// "5 flag to write, 1 adopt or 2 commit", where byte 5 is in use: phases 5 and 6.
fn flags(f: &Fields) -> bool {
    every_record(f, |r| !matches!(r.phase, 5 | 6) || matches!(r.flag, 1 | 2))
}

/// "6–7 zero; .. 20–23 zero", of which bytes 6, 20 and 21 are in use.
fn record_zeros(f: &Fields) -> bool {
    every_record(f, |r| r.zero == 0 && r.tail == [0; 2])
}

/// "Idle is all zero."
fn idle_records(f: &Fields) -> bool {
    every_record(f, |r| r.phase != 0 || *r == Record::default())
}

/// "Bytes 1, 3 and 16–19 are zero outside phases 2, 4, 6."
fn outside_collects(f: &Fields) -> bool {
    every_record(f, |r| in_a_collect(r) || (r.next, r.seen, r.best) == (0, 0, 0))
}

/// "Byte 4 is zero outside phase 2."
fn best_island_outside_m(f: &Fields) -> bool {
    every_record(f, |r| r.phase == 2 || r.best_island == 0)
}

/// "Byte 5 is zero outside phases 5, 6."
fn flag_outside_b(f: &Fields) -> bool {
    every_record(f, |r| matches!(r.phase, 5 | 6) || r.flag == 0)
}

/// "While seen is 0, the best fields are zero."
fn nothing_seen(f: &Fields) -> bool {
    every_record(f, |r| r.seen != 0 || (r.best_island, r.best) == (0, 0))
}

/// "In phases 2, 4 and 6 the station's own register holds what the record says it wrote: (c, carried), carried, or
/// (flag, carried)."
fn own_registers(f: &Fields) -> bool {
    f.records.iter().enumerate().all(|(who, r)| {
        let cell = |mark, island| Cell { mark, island, zeros: [0; 2], figure: r.carried };
        let there = r.island < f.k;
        match r.phase {
            2 => f.m[who] == cell(1, r.island),
            4 => there && f.a.row(r.island)[who] == cell(1, 0),
            6 => there && f.b.row(r.island)[who] == cell(r.flag, 0),
            _ => true,
        }
    })
}

/// A position is passed when the next one to read lies beyond it.
fn passed(who: usize, r: &Record) -> bool {
    in_a_collect(r) && r.next as usize > who
}

/// "Once its own position is passed, seen is not 0 .."
fn own_seen(f: &Fields) -> bool {
    f.records.iter().enumerate().all(|(who, r)| !passed(who, r) || r.seen != 0)
}

/// ".. and in phases 2 and 4 best is no lower than what it wrote."
fn own_best(f: &Fields) -> bool {
    f.records.iter().enumerate().all(|(who, r)| {
        !passed(who, r)
            || match r.phase {
                2 => (r.best_island, Figure::of(r.best)) >= (r.island, Figure::of(r.carried)),
                4 => Figure::of(r.best) >= Figure::of(r.carried),
                _ => true,
            }
    })
}

/// "record byte 6 counts these in phases 2, 4 and 6 (soundness asks only this of it: never above the position, zero
/// elsewhere)". So it need not be what the other fields say was seen.
fn registers_met(f: &Fields) -> bool {
    every_record(f, |r| if in_a_collect(r) { r.met <= r.next } else { r.met == 0 })
}

/// "the steps of its present pass (a whole one, 3(n + 1), once decided or spent)": in each of the three arrays a pass has
/// a write and n reads.
fn of_present_pass(n: u32, r: &Record) -> u32 {
    let (array, begun) = (n + 1, 1 + r.next as u32);
    match r.phase {
        0 | 1 => 0,
        2 => begun,
        3 => array,
        4 => array + begun,
        5 => 2 * array,
        6 => 2 * array + begun,
        _ => 3 * array,
    }
}

/// "at most 3(n + 1) × c plus the steps of its present pass"
pub fn most_steps(n: u8, r: &Record) -> u32 {
    3 * (n as u32 + 1) * r.island as u32 + of_present_pass(n as u32, r)
}

/// "A sound board has this at most .."
fn steps_taken(f: &Fields) -> bool {
    every_record(f, |r| r.steps as u32 <= most_steps(f.n, r))
}
