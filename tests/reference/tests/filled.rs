//! "How many had written": what is said of the registers that a collect meets, on boards that runs reach and on sound boards
//! that no run need reach.

use reference::boards::{sound, standing_at, Place};
use reference::bytes::{Cell, Fields, Record};
use reference::calls;
use reference::engine::{packed_answer, Engine, Reference};
use reference::model::{Answer, Mark};
use reference::random::Random;
use reference::sound::broken;
use reference::starts::with_figures;

fn steps(board: &mut [u8], station: u8, count: usize) -> Vec<Answer> {
    (0..count).map(|_| calls::step(board, station).unwrap()).collect()
}

/// Byte 6 of a station's record.
fn met(board: &[u8], station: u8) -> u8 {
    board[board.len() - 24 * (board[0] - station + 1) as usize + 6]
}

fn total(answer: Answer) -> Option<u8> {
    match answer {
        Answer::Wrote | Answer::Read(_) => None,
        Answer::Marked(_, _, total) => Some(total),
        Answer::Went(_, _, total) | Answer::Adopted(_, _, total) => Some(total),
        Answer::Decided(_, _, total) | Answer::Spent(_, _, total) => Some(total),
    }
}

/// The document's sheet, of which 24 steps are taken: the first station meets itself alone, the second one both.
#[test]
fn the_first_sheet() {
    use Answer::*;
    let mut board = with_figures(3, 2, &[-40, 15]);
    let pass = |second: bool, total: u8| {
        let collect = [Wrote, Read(true), Read(second)];
        let ends = [Went(0, -40, total), Marked(Mark::Commit, -40, total), Decided(0, -40, total)];
        ends.into_iter().flat_map(|end| collect.into_iter().chain([end])).collect::<Vec<Answer>>()
    };
    assert_eq!(steps(&mut board, 1, 12), pass(false, 1));
    assert_eq!(steps(&mut board, 2, 12), pass(true, 2));
}

/// The byte grows where a filled register is met, and is 0 once the collect is over.
#[test]
fn the_byte_along_a_pass() {
    let mut board = with_figures(3, 2, &[-40, 15]);
    let mut bytes = |station| {
        let mut byte = || {
            steps(&mut board, station, 1);
            met(&board, station)
        };
        [(); 12].map(|()| byte())
    };
    assert_eq!(bytes(1), [0, 1, 1, 0, 0, 1, 1, 0, 0, 1, 1, 0]);
    assert_eq!(bytes(2), [0, 1, 2, 0, 0, 1, 2, 0, 0, 1, 2, 0]);
}

/// With one station a collect has its last read alone: there is no *read*, every total is 1, and the byte stays 0.
#[test]
fn one_station() {
    let mut board = with_figures(1, 2, &[-9]);
    let mut answers = Vec::new();
    for _ in 0..6 {
        answers.extend(steps(&mut board, 1, 1));
        assert_eq!(met(&board, 1), 0);
    }
    let ends = [Answer::Went(0, -9, 1), Answer::Marked(Mark::Commit, -9, 1), Answer::Decided(0, -9, 1)];
    assert_eq!(answers, ends.into_iter().flat_map(|end| [Answer::Wrote, end]).collect::<Vec<Answer>>());
}

/// Two that circle meet each other's registers but where one is ahead; those that adopt and are spent tell it too.
#[test]
fn adopted_and_spent() {
    let mut board = with_figures(2, 2, &[7, 3]);
    let mut ends = Vec::new();
    for _ in 0..2 {
        for (station, count) in [(2, 3), (1, 3), (2, 3), (1, 6), (2, 3)] {
            ends.extend(steps(&mut board, station, count).into_iter().filter(|answer| total(*answer).is_some()));
        }
    }
    use Answer::*;
    use Mark::*;
    let first =
        [Went(0, 3, 1), Went(0, 7, 2), Marked(Commit, 3, 1), Marked(Adopt, 7, 2), Adopted(1, 7, 1), Adopted(1, 3, 2)];
    let second =
        [Went(1, 3, 2), Went(1, 7, 2), Marked(Commit, 3, 1), Marked(Adopt, 7, 2), Spent(1, 7, 1), Spent(1, 3, 2)];
    assert_eq!(ends, [first, second].concat());
}

/// A register that is filled behind the reader is not met, and one that is filled just before it is read is.
#[test]
fn filled_behind_the_reader_or_before_it() {
    for (other, total) in [(1, 1), (3, 2)] {
        let mut board = with_figures(3, 2, &[5, 5, 5]);
        assert_eq!(steps(&mut board, 2, 2), [Answer::Wrote, Answer::Read(false)]);
        assert_eq!(steps(&mut board, 2, 1), [Answer::Read(true)]);
        assert_eq!(steps(&mut board, other, 1), [Answer::Wrote]);
        assert_eq!(met(&board, 2), 1);
        assert_eq!(steps(&mut board, 2, 1), [Answer::Went(0, 5, total)]);
    }
}

/// A fresh board with one station amid its collect of m, the registers of all stations as they are said to be filled.
fn amid(who: usize, record: Record, filled: &[bool]) -> Vec<u8> {
    let n = filled.len() as u8;
    let mut f = Fields::of_bytes(&with_figures(n, 2, &[]));
    let cell = Cell { mark: 1, figure: 5, ..Cell::default() };
    f.m = filled.iter().map(|filled| if *filled { cell } else { Cell::default() }).collect();
    f.records[who] = Record { phase: 2, proposal: 5, carried: 5, best: 5 * (record.seen > 0) as i32, ..record };
    assert_eq!(broken(&f), Vec::<&str>::new());
    f.to_bytes()
}

/// Sound boards that nothing reaches: the total is what the byte says and what the last read adds, and no more is asked.
#[test]
fn counts_that_are_not_what_was_seen() {
    let none = amid(0, Record { next: 1, seen: 1, ..Record::default() }, &[true, false]);
    assert_eq!(steps(&mut none.clone(), 1, 1), [Answer::Went(0, 5, 0)]);
    let nothing_seen = amid(2, Record { next: 2, seen: 0, met: 2, ..Record::default() }, &[false, false, true]);
    assert_eq!(steps(&mut nothing_seen.clone(), 3, 1), [Answer::Went(0, 5, 3)]);
    let lower = amid(0, Record { next: 2, seen: 1, met: 0, ..Record::default() }, &[true, true, true]);
    assert_eq!(steps(&mut lower.clone(), 1, 1), [Answer::Went(0, 5, 1)]);
    let higher = amid(0, Record { next: 2, seen: 1, met: 2, ..Record::default() }, &[true, false, false]);
    assert_eq!(steps(&mut higher.clone(), 1, 1), [Answer::Went(0, 5, 2)]);
}

/// "soundness asks only this of it: never above the position, zero elsewhere"; byte 7 is zero throughout.
#[test]
fn the_bound_on_boards() {
    let mut r = Random::new(81);
    for (n, k) in [(1, 2), (3, 2), (16, 4)] {
        for (phase, next) in (0..=8).flat_map(|phase| (0..n).map(move |next| (phase, next))) {
            let who = r.below(n as usize);
            let board = standing_at(&mut r, n, k, who, Place { phase, island: k - 1, next });
            let mut f = Fields::of_bytes(&board);
            let most = f.records[who].next;
            assert_eq!(most, if matches!(phase, 2 | 4 | 6) { next } else { 0 });
            for met in 0..=255 {
                (f.records[who].met, f.records[who].zero) = (met, 0);
                assert_eq!(broken(&f).is_empty(), met <= most);
                assert_eq!(broken(&f).contains(&"registers_met"), met > most);
                f.records[who].zero = 1;
                assert!(broken(&f).contains(&"record_zeros"));
            }
        }
    }
}

/// From any sound board: a *read* adds its register to the byte, a total is the byte and the last register, and no other call
/// touches the byte. The figures do not follow from it: any other count in its place gives the same board but for that.
#[test]
fn only_told() {
    let mut r = Random::new(82);
    for _ in 0..6000 {
        let (n, k) = (r.between(1, 5) as u8, r.between(2, 4) as u8);
        let before = sound(&mut r, n, k);
        let (who, mut after) = (r.below(n as usize), before.clone());
        let (station, record) = (who as u8 + 1, Fields::of_bytes(&before).records[who]);
        let Ok(answer) = calls::step(&mut after, station) else { continue };
        match answer {
            Answer::Wrote => assert_eq!(met(&after, station), 0),
            Answer::Read(filled) => assert_eq!(met(&after, station), record.met + filled as u8),
            _ => assert!(met(&after, station) == 0 && total(answer).unwrap() - record.met <= 1),
        }
        let mut f = Fields::of_bytes(&before);
        f.records[who].met = r.between(0, record.next as usize) as u8;
        let (mut other, told) = (f.to_bytes(), |answer: u64| answer & !0xFF00_0000);
        assert_eq!(told(Reference.step(&mut other, station)), told(packed_answer(answer)));
        let (mut f, g) = (Fields::of_bytes(&other), Fields::of_bytes(&after));
        f.records[who].met = g.records[who].met;
        assert_eq!(f, g);
    }
}

/// Proposals leave it 0, and how a station stands says nothing of it.
#[test]
fn nothing_else_tells_it() {
    let mut r = Random::new(83);
    for _ in 0..2000 {
        let (n, k) = (r.between(1, 5) as u8, r.between(2, 4) as u8);
        let board = sound(&mut r, n, k);
        let mut bare = Fields::of_bytes(&board);
        bare.records.iter_mut().for_each(|record| record.met = 0);
        let bare = bare.to_bytes();
        assert_eq!(calls::show(&board), calls::show(&bare));
        for station in 1..=n {
            assert_eq!(calls::standing(&board, station), calls::standing(&bare, station));
            let mut proposed = board.clone();
            if calls::propose(&mut proposed, station, r.figure()).is_ok() {
                assert_eq!(met(&proposed, station), 0);
            }
        }
    }
}

/// Sixteen of sixteen, the most that a total can be, is told by every kind that ends a collect; the byte goes to 15.
#[test]
fn sixteen_of_sixteen() {
    let mut board = with_figures(16, 2, &(1..=16).collect::<Vec<i32>>());
    let mut highest = 0;
    for array in 0..3 {
        (1..=16).for_each(|station| drop(steps(&mut board, station, 1)));
        for station in 1..=16 {
            let reads = steps(&mut board, station, 15);
            highest = highest.max(met(&board, station));
            assert!(reads.iter().all(|answer| *answer == Answer::Read(true)), "array {array}");
            assert_eq!(steps(&mut board, station, 1).into_iter().map(total).collect::<Vec<_>>(), [Some(16)]);
        }
    }
    assert_eq!(highest, 15);
}
