//! "a correction counts by its size without sign; of two equal sizes the positive is larger": the order itself, and every
//! place where figures are compared.

use reference::boards::sound;
use reference::bytes::{fields, values, Fields};
use reference::calls;
use reference::figure::{Figure, EDGES};
use reference::model::{Answer, Mark};
use reference::order_batches::{Amid, LOWEST};
use reference::random::Random;

/// "So 0, −1, 1, −2, 2 rise", and go on so up to "−2,147,483,648 being the largest figure of all".
#[test]
fn the_row() {
    let small: Vec<i32> = [0, -1, 1, -2, 2].into_iter().chain((3..1000).flat_map(|v| [-v, v])).collect();
    let large: Vec<i32> = (i32::MAX - 1000..=i32::MAX).flat_map(|v| [-v, v]).chain([i32::MIN]).collect();
    for row in [&small[..], &large, &EDGES] {
        assert!(row.windows(2).all(|two| Figure::of(two[0]) < Figure::of(two[1])));
    }
}

/// Of two figures one is above the other, or both are one; what is above the higher of two is above the lower.
#[test]
fn strict_and_total() {
    for (i, x) in EDGES.into_iter().enumerate() {
        assert_eq!(Figure::of(x).number(), x);
        assert!(Figure::Lower < Figure::of(x));
        for (j, y) in EDGES.into_iter().enumerate() {
            assert_eq!(Figure::of(x).cmp(&Figure::of(y)), i.cmp(&j), "{x} and {y}");
            assert_eq!(Figure::of(x) == Figure::of(y), x == y);
        }
    }
}

/// Any two: by sizes in more bits than a figure has, and by signs where these are equal.
#[test]
fn any_two() {
    let mut r = Random::new(71);
    for _ in 0..100_000 {
        let (x, y) = (r.figure(), r.figure());
        let larger = match ((x as i64).abs(), (y as i64).abs()) {
            (one, other) if one > other => x,
            (one, other) if one < other => y,
            _ if x > 0 => x,
            _ => y,
        };
        assert_eq!(Figure::of(x).max(Figure::of(y)).number(), larger, "{x} and {y}");
    }
}

/// The edges as they rise, each two of them, and the higher one.
fn pairs() -> impl Iterator<Item = (i32, i32, i32)> {
    let higher = |i: usize, j: usize| EDGES[i.max(j)];
    (0..EDGES.len()).flat_map(move |i| (0..EDGES.len()).map(move |j| (EDGES[i], EDGES[j], higher(i, j))))
}

fn answer(amid: Amid) -> Answer {
    calls::step(&mut amid.board(), 1).unwrap()
}

/// "Best is the largest so far": of pairs by island first, then by figure.
#[test]
fn the_largest_that_was_read() {
    for (x, y, higher) in pairs() {
        let m = |island| answer(Amid { phase: 2, best: (1, x), read: (island, y), ..LOWEST });
        assert_eq!([m(0), m(1), m(2)], [Answer::Went(1, x, 2), Answer::Went(1, higher, 2), Answer::Went(2, y, 2)]);
        let a = Amid { best: (0, x), read: (0, y), ..LOWEST };
        let b = Amid { phase: 6, ..a };
        // 5 and −5 are different figures.
        let flag = if x == y { Mark::Commit } else { Mark::Adopt };
        assert_eq!(answer(a), Answer::Marked(flag, higher, 2));
        assert_eq!(answer(Amid { seen: 2, ..a }), Answer::Marked(Mark::Adopt, higher, 2));
        assert_eq!(answer(b), Answer::Adopted(1, higher, 2));
        let commits = if x == y { Answer::Decided(0, x, 2) } else { Answer::Adopted(1, x, 2) };
        assert_eq!(answer(Amid { seen: 2, mark: 2, ..b }), commits);
    }
}

/// "in phases 2 and 4 best is no lower than what it wrote", where phase 2 asks it of pairs; phase 6 asks no such thing.
#[test]
fn no_lower_than_what_it_wrote() {
    for (wrote, best, higher) in pairs() {
        let sound = |phase, island| {
            let amid = Amid { phase, wrote: (1, wrote), holds: wrote, best: (island, best), ..LOWEST };
            calls::check(&amid.board()).is_ok()
        };
        let no_lower = best == higher;
        assert_eq!([0, 1, 2].map(|island| sound(2, island)), [false, no_lower, true], "{wrote} and {best}");
        assert_eq!([sound(4, 0), sound(6, 0)], [no_lower, true], "{wrote} and {best}");
        let other = Amid { wrote: (1, wrote), holds: best, best: (0, i32::MIN), ..LOWEST };
        assert_eq!(calls::check(&other.board()).is_ok(), wrote == best);
    }
}

/// No run reads different figures of which the largest is 0, and yet a board may say so: it comes back as it was, and
/// goes on with 0 until something is read.
#[test]
fn different_figures_with_the_lowest_for_best() {
    for (read, best) in [(0, 0), (-1, -1), (1, 1), (i32::MIN, i32::MIN)] {
        let amid = Amid { n: 3, seen: 2, read: (0, read), ..LOWEST };
        let board = amid.board();
        assert_eq!(fields(&values(&Fields::of_bytes(&board))).to_bytes(), board);
        let mut after = board.clone();
        assert_eq!(calls::step(&mut after, 1), Ok(Answer::Read(true)));
        let record = Fields::of_bytes(&after).records[0];
        assert_eq!((record.seen, record.best), (2, best));
        assert_eq!(calls::step(&mut after, 1), Ok(Answer::Marked(Mark::Adopt, best, 2)));
    }
}

/// The figures of a made board: what stations wrote, and what they have for best.
fn figures_of(f: &Fields) -> Vec<i32> {
    let registers = f.m.iter().chain(&f.a.all).chain(&f.b.all).filter(|c| c.mark != 0).map(|c| c.figure);
    registers.chain(f.records.iter().filter(|r| r.seen != 0).map(|r| r.best)).collect()
}

/// Made boards often have what an order goes wrong by, large sizes of both signs among it.
#[test]
fn made_boards_mix_signs_and_ends() {
    let mut r = Random::new(72);
    let mut met = [0; 6];
    for _ in 0..1000 {
        let all = figures_of(&Fields::of_bytes(&sound(&mut r, 4, 2)));
        let has = |v: i32| all.contains(&v);
        let signs = |least: i32| all.iter().any(|v| *v > least && has(-v));
        let beside = all.iter().any(|v| *v > 2 && (has(!v) || v.checked_add(1).is_some_and(has)));
        let mixed = [signs(0), signs(2), has(0), has(i32::MIN) && has(i32::MAX), beside, has(i32::MIN) && has(-1)];
        met.iter_mut().zip(mixed).for_each(|(times, here)| *times += here as u32);
    }
    assert!(met.iter().all(|times| *times > 300), "{met:?}");
}
