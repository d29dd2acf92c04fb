//! Making the measured calls: once each under callgrind, and many times each under the clock. Everything is printed as
//! fields with tabs between them.

use crate::direct::Direct;
use crate::work::{cases, Call, Case, SIZES};
use reference::engine::{Engine, Reference, SHOWN};
use reference::linked::Linked;
use reference::sheet;
use std::hint::black_box;
use std::time::Instant;

/// The proved engine, the Rust written for speed, and the Rust written on values.
pub const ENGINES: [&str; 3] = ["ours", "direct", "values"];

fn engine(name: &str) -> &'static dyn Engine {
    match name {
        "ours" => &Linked,
        "direct" => &Direct,
        "values" => &Reference,
        _ => panic!("no engine {name}"),
    }
}

/// Callgrind collects inside this function alone and writes a file at its end.
#[no_mangle]
#[inline(never)]
fn lufanelis_bench_counted(case: &mut Case, engine: &dyn Engine, board: &mut [u8], line: &mut [u8; SHOWN]) -> u64 {
    case.made(engine, board, line)
}

/// Makes every call once and says so, in the order in which callgrind writes its files.
pub fn count(name: &str) {
    for (n, k) in SIZES {
        for mut case in cases(n, k) {
            let mut board = case.board.clone();
            let mut line = [0; SHOWN];
            black_box(lufanelis_bench_counted(&mut case, engine(name), &mut board, &mut line));
            println!("{name}\t{n}\t{k}\t{}", case.name);
        }
    }
}

/// The same for a sheet, which the reference plays.
#[no_mangle]
#[inline(never)]
fn lufanelis_bench_played(text: &[u8]) -> Vec<u8> {
    sheet::play(text)
}

/// Plays a sheet and tells how long it took, in seconds.
pub fn play(path: &str) {
    let text = std::fs::read(path).expect("a sheet");
    let start = Instant::now();
    black_box(lufanelis_bench_played(&text));
    println!("{:.3}", start.elapsed().as_secs_f64());
}

/// Seconds for so many calls, each on the case's own board.
fn batch(case: &mut Case, engine: &dyn Engine, count: usize) -> f64 {
    let mut board = case.board.clone();
    let mut line = [0; SHOWN];
    let start = Instant::now();
    for _ in 0..count {
        board.copy_from_slice(black_box(&case.board));
        black_box(lufanelis_bench_counted(black_box(&mut *case), engine, &mut board, &mut line));
    }
    start.elapsed().as_secs_f64()
}

fn median(mut list: Vec<f64>) -> f64 {
    list.sort_by(f64::total_cmp);
    list[list.len() / 2]
}

/// Nanoseconds of a call by each engine: the median over 41 batches of about 200 microseconds, less what copying the
/// board takes. The engines take turns, so that whatever else the machine does meets them alike.
fn nanoseconds(case: &mut Case) -> [f64; 3] {
    const BATCHES: usize = 41;
    let mut nothing = Case { call: Call::Nothing, ..case.clone() };
    let counts = ENGINES.map(|name| (200e-6 * 3.0 / batch(case, engine(name), 3)).clamp(1.0, 4000.0) as usize);
    let mut found = [(); 3].map(|()| Vec::new());
    for _ in 0..BATCHES {
        for (at, name) in ENGINES.iter().enumerate() {
            let spent = batch(case, engine(name), counts[at]) - batch(&mut nothing, engine(name), counts[at]);
            found[at].push(spent.max(0.0) * 1e9 / counts[at] as f64);
        }
    }
    found.map(median)
}

pub fn time() {
    for (n, k) in SIZES {
        for case in cases(n, k).iter_mut().filter(|case| case.timed) {
            for (name, spent) in ENGINES.iter().zip(nanoseconds(case)) {
                println!("{name}\t{n}\t{k}\t{}\t{spent:.1}", case.name);
            }
        }
    }
}
