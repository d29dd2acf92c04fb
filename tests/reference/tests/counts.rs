//! "Record bytes 20–21 hold the station's own accepted steps since its proposal": what is said of that count, on boards
//! that runs reach and on sound boards that no run need reach.

use reference::boards::{sound, standing_at, Place};
use reference::bytes::{length, Fields, Record};
use reference::calls;
use reference::habits::{contended, rising};
use reference::model::Standing;
use reference::random::Random;
use reference::refusal::Refusal;
use reference::sound::{broken, most_steps};

fn counts(board: &[u8]) -> Vec<u16> {
    Fields::of_bytes(board).records.iter().map(|r| r.steps).collect()
}

fn steps(board: &[u8], station: u8) -> u16 {
    calls::standing(board, station).unwrap().1
}

/// The last four bytes of a record: least significant byte of the count first, and zeros behind it.
fn tail(board: &[u8], station: u8) -> [u8; 4] {
    let end = board.len() - 24 * (board[0] - station) as usize;
    board[end - 4..end].try_into().unwrap()
}

/// Accepted steps add one to the own count and nothing to the others; refused calls alter nothing. The board stays
/// sound, however high the counts were.
#[test]
fn a_step_adds_one() {
    let mut r = Random::new(61);
    for _ in 0..6000 {
        let (n, k) = (r.between(1, 5) as u8, r.between(2, 4) as u8);
        let mut board = sound(&mut r, n, k);
        for _ in 0..12 {
            let station = r.between(0, n as usize + 1) as u8;
            let before = board.clone();
            if calls::step(&mut board, station).is_err() {
                assert_eq!(board, before);
                continue;
            }
            assert_eq!(calls::check(&board), Ok(()));
            let mut expected = counts(&before);
            expected[station as usize - 1] += 1;
            assert_eq!(counts(&board), expected);
        }
    }
}

/// Only an idle station proposes, whose record is all zero: its count is 0 then.
#[test]
fn a_proposal_counts_from_zero() {
    let mut r = Random::new(62);
    for _ in 0..4000 {
        let (n, k) = (r.between(1, 5) as u8, r.between(2, 4) as u8);
        let mut board = sound(&mut r, n, k);
        let before = counts(&board);
        let station = r.between(1, n as usize) as u8;
        if calls::propose(&mut board, station, r.figure()).is_ok() {
            assert_eq!((steps(&board, station), before[station as usize - 1]), (0, 0));
        }
        assert_eq!(counts(&board), before);
    }
}

/// After any list of steps the counts have grown by the station's accepted steps in it.
#[test]
fn counts_grow_by_the_steps_of_a_run() {
    let mut r = Random::new(63);
    for _ in 0..3000 {
        let (n, k) = (r.between(1, 5) as u8, r.between(2, 4) as u8);
        let mut board = sound(&mut r, n, k);
        let list: Vec<u8> = (0..r.below(80)).map(|_| r.between(0, n as usize + 1) as u8).collect();
        let (mut single, mut expected) = (board.clone(), counts(&board));
        for station in &list {
            if calls::step(&mut single, *station).is_ok() {
                expected[*station as usize - 1] += 1;
            }
        }
        assert!(calls::run(&mut board, &list).is_ok());
        assert_eq!(counts(&board), expected);
    }
}

/// Where no island is passed over the count is the most that soundness allows, in every phase and at every position.
#[test]
fn the_bound_is_met() {
    for (n, k) in [(2, 2), (3, 3), (5, 4)] {
        let mut board = rising(n, k);
        let mut met = [0; 9];
        for station in contended(n, k).single_steps(n) {
            assert!(calls::step(&mut board, station).is_ok());
            let f = Fields::of_bytes(&board);
            let r = &f.records[station as usize - 1];
            assert_eq!(r.steps as u32, most_steps(n, r), "{r:?}");
            met[r.phase as usize] += 1;
        }
        assert!(met[1..7].iter().all(|times| *times > 0) && met[8] == n as usize);
    }
    for n in 1..=16 {
        let mut board = rising(n, 2);
        let all = 3 * (n as usize + 1);
        assert_eq!(calls::run(&mut board, &vec![1; all]), Ok((all, 0)));
        let r = Fields::of_bytes(&board).records[0];
        assert_eq!((r.phase, r.steps as usize, most_steps(n, &r) as usize), (7, all, all));
    }
}

/// The steps of the present pass as the request has them, written out for n = 3 on island 2.
#[test]
fn the_bound_by_phase() {
    let most = |phase, next| most_steps(3, &Record { phase, next, island: 2, ..Record::default() });
    assert_eq!([1, 3, 5, 7, 8].map(|phase| most(phase, 0)), [24, 28, 32, 36, 36]);
    assert_eq!([0, 1, 2].map(|next| most(2, next)), [25, 26, 27]);
    assert_eq!([0, 1, 2].map(|next| most(4, next)), [29, 30, 31]);
    assert_eq!([0, 1, 2].map(|next| most(6, next)), [33, 34, 35]);
}

/// A count is sound from 0 up to the most and not above it, whichever byte it is above by.
#[test]
fn the_bound_on_boards() {
    let mut r = Random::new(64);
    for (n, k) in [(1, 2), (3, 2), (4, 30), (16, 64)] {
        for phase in 0..=8 {
            for island in [0, k - 1] {
                let place = Place { phase, island, next: n - 1 };
                let who = r.below(n as usize);
                let mut f = Fields::of_bytes(&standing_at(&mut r, n, k, who, place));
                let most = most_steps(n, &f.records[who]) as u16;
                let mut broken_by = |steps: u16, tail: [u8; 2]| {
                    (f.records[who].steps, f.records[who].tail) = (steps, tail);
                    broken(&f)
                };
                for steps in [0, most / 2, most.saturating_sub(1), most] {
                    assert!(broken_by(steps, [0; 2]).is_empty());
                    assert!(broken_by(steps, [0, 1]).contains(&"record_zeros"));
                    assert!(broken_by(steps, [1, 0]).contains(&"record_zeros"));
                }
                for steps in [most + 1, most + 256, 65_535] {
                    assert!(broken_by(steps, [0; 2]).contains(&"steps_taken"));
                }
            }
        }
    }
}

/// A station that comes late goes over islands that it never wrote to, and its count stays far below.
#[test]
fn a_jump_leaves_the_count_behind() {
    let mut board = vec![0; length(3, 8)];
    assert!(calls::lay(&mut board, 3, 8).is_ok());
    assert!(calls::propose(&mut board, 1, 7).is_ok());
    assert!(calls::propose(&mut board, 2, 3).is_ok());
    // Two stations circle from island to island, by turns of a write and a collect.
    let turns = [2, 1, 2, 1, 1, 2].repeat(6);
    let list: Vec<u8> = turns.iter().flat_map(|station| [*station; 4]).collect();
    assert_eq!(calls::run(&mut board, &list), Ok((list.len(), 0)));
    assert!(calls::propose(&mut board, 3, 5).is_ok());
    assert_eq!(calls::run(&mut board, &[3; 4]), Ok((4, 0)));
    assert!(matches!(calls::standing(&board, 3), Ok((Standing::Going(5, _), 4))));
    assert_eq!(calls::check(&board), Ok(()));
}

/// The largest count of all, 3 · 17 · 64, which has both bytes; steps of stations that are spent add nothing to it.
#[test]
fn the_largest_count() {
    let halts = contended(16, 64);
    let [mut by_run, mut by_rounds] = [(); 2].map(|()| rising(16, 64));
    assert_eq!(calls::run(&mut by_run, &halts.single_steps(16)), Ok((16 * 3264, 0)));
    assert_eq!(calls::rounds(&mut by_rounds, &halts), Ok((256, 0)));
    assert_eq!(by_run, by_rounds);
    assert_eq!(calls::run(&mut by_run, &[1; 1000]), Ok((0, 1000)));
    assert_eq!(calls::step(&mut by_run, 16), Err(Refusal::Spent));
    for station in 1..=16 {
        assert!(matches!(calls::standing(&by_run, station), Ok((Standing::Spent(63, _), 3264))));
        assert_eq!(tail(&by_run, station), [0xC0, 0x0C, 0, 0]);
    }
}
