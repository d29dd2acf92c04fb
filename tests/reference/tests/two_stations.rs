//! Two stations are too few: the request's sentences on layings, on boards of two stations that are made by hand, and on sheets.

use reference::boards::{all_standing, half_idle, sound, Place};
use reference::bytes::{length, Fields};
use reference::calls;
use reference::compare::Compare;
use reference::engine::Reference;
use reference::line_batches::printed;
use reference::model::{Answer, Standing};
use reference::pairs::Pair;
use reference::random::Random;
use reference::refusal::Refusal;
use reference::sheet::{play, play_line};
use reference::starts::{fresh, put_in, with_figures};

fn laid(size: usize, n: u8, k: u8) -> Result<(), Refusal> {
    calls::lay(&mut vec![9; size], n, k)
}

/// A call that is refused leaves every byte.
fn refused(board: &[u8], pairs: &[Pair]) -> Result<(), Refusal> {
    let mut after = board.to_vec();
    let answer = calls::propose_all(&mut after, pairs);
    assert!(answer.is_ok() || after == board, "{pairs:?} is refused and alters the board");
    if let [(station, figure)] = pairs {
        assert_eq!(calls::propose(&mut board.to_vec(), *station, *figure), answer);
    }
    answer
}

/// A laying allows "n = 1 or 3 to 16, else 8", whatever K and the length are.
#[test]
fn layings() {
    for n in 0..=255 {
        let allowed = n == 1 || (3..=16).contains(&n);
        for k in [0, 1, 2, 64, 65, 255] {
            let right = match (allowed, (2..=64).contains(&k)) {
                (false, _) => Err(Refusal::StationCount),
                (true, false) => Err(Refusal::IslandCount),
                (true, true) => Ok(()),
            };
            assert_eq!(laid(length(n, k), n, k), right, "{n} {k}");
            assert_eq!(laid(length(n, k) + 1, n, k), right.and(Err(Refusal::BoardLength)), "{n} {k}");
            assert_eq!(laid(7, n, k), Err(Refusal::BoardTooShort));
        }
    }
    // What a laying refuses is left as it was: here a board of two stations.
    let board = with_figures(2, 3, &[7, 3]);
    let mut after = board.clone();
    assert_eq!(calls::lay(&mut after, 2, 3), Err(Refusal::StationCount));
    assert_eq!(after, board);
}

/// "It refuses between 12 and 13: 22, a proposal on a two-station board", in every phase of both stations.
#[test]
fn proposals() {
    let mut r = Random::new(81);
    for (one, two) in (0..=8).flat_map(|one| (0..=8).map(move |two| (one, two))) {
        let board = all_standing(&mut r, 2, &[one, two].map(|phase| Place { phase, island: 0, next: 1 }));
        assert_eq!(calls::check(&board), Ok(()));
        for station in 0..=255 {
            let expected = if matches!(station, 1 | 2) { Refusal::TwoStations } else { Refusal::NoSuchStation };
            assert_eq!(refused(&board, &[(station, 5)]), Err(expected));
        }
    }
}

/// 20 over all pairs, then of each pair in turn 12, 22 and 13.
#[test]
fn pairs() {
    let idle = fresh(2, 2);
    let mut one = idle.clone();
    assert!(put_in(&mut one, 1, 7));
    for board in [idle, one, with_figures(2, 2, &[7, 3])] {
        let answer = |stations: &[u8]| refused(&board, &stations.iter().map(|s| (*s, 5)).collect::<Vec<Pair>>());
        assert_eq!(answer(&[]), Ok(()));
        for stations in [&[1, 2][..], &[2, 1], &[1, 0], &[2, 3, 1], &[1, 255], &[2, 0, 3]] {
            assert_eq!(answer(stations), Err(Refusal::TwoStations), "{stations:?}");
        }
        for stations in [&[0, 1][..], &[3, 2], &[3, 1, 2], &[255, 1]] {
            assert_eq!(answer(stations), Err(Refusal::NoSuchStation), "{stations:?}");
        }
        for stations in [&[1, 1][..], &[2, 1, 2], &[1, 0, 0], &[3, 1, 3], &[0, 0]] {
            assert_eq!(answer(stations), Err(Refusal::NamedTwice), "{stations:?}");
        }
    }
}

/// 7 to 11 come before 20, 12 and 22.
#[test]
fn the_boards_own_refusals_come_first() {
    let board = with_figures(2, 2, &[7, 3]);
    let changed = |at: usize, byte: u8| [&board[..at], &[byte], &board[at + 1..]].concat();
    for pairs in [&[][..], &[(1, 5)], &[(0, 5)], &[(1, 5), (1, 5)]] {
        assert_eq!(refused(&board[..7], pairs), Err(Refusal::BoardTooShort));
        assert_eq!(refused(&changed(0, 17), pairs), Err(Refusal::StationCount));
        assert_eq!(refused(&changed(1, 1), pairs), Err(Refusal::IslandCount));
        assert_eq!(refused(&board[..135], pairs), Err(Refusal::BoardLength));
        assert_eq!(refused(&changed(2, 1), pairs), Err(Refusal::NotSound));
    }
}

/// Boards of any other number of stations take proposals as they do.
#[test]
fn other_boards() {
    let mut r = Random::new(82);
    for n in (1..=16).filter(|n| *n != 2) {
        let board = half_idle(&mut r, n, 3);
        for station in 1..=n {
            let idle = matches!(calls::standing(&board, station), Ok((Standing::Idle, _)));
            let expected = if idle { Ok(()) } else { Err(Refusal::NotIdle) };
            assert_eq!(refused(&board, &[(station, 5)]), expected);
        }
    }
}

/// "Saved boards of two stations still show and step": every call but a laying and a proposal, on sound boards.
#[test]
fn saved_boards() {
    let mut r = Random::new(83);
    for k in 2..=64 {
        let board = sound(&mut r, 2, k);
        assert_eq!(calls::check(&board), Ok(()));
        assert!(calls::show(&board).is_ok());
        let f = Fields::of_bytes(&board);
        for station in 1..=2 {
            assert!(calls::standing(&board, station).is_ok());
            let expected = match f.records[station as usize - 1].phase {
                0 => Some(Refusal::Idle),
                7 => Some(Refusal::Decided),
                8 => Some(Refusal::Spent),
                _ => None,
            };
            assert_eq!(calls::step(&mut board.clone(), station).err(), expected);
        }
        let going = f.records.iter().filter(|record| (1..7).contains(&record.phase)).count();
        let (taken, passed) = calls::run(&mut board.clone(), &[0, 1, 2, 3]).unwrap();
        assert_eq!((taken, passed), (going, 4 - going));
    }
}

/// Who comes first and alone decides its own figure after 9 steps. The other one decides that figure too: as fast, or after a
/// second pass where its own is above it.
#[test]
fn one_after_the_other() {
    for k in 2..=64 {
        for (first, figures, above) in [(1, [7, 3], false), (2, [7, 3], true), (1, [i32::MAX, i32::MIN], true)] {
            let mut board = with_figures(2, k, &figures);
            let figure = figures[first as usize - 1];
            assert_eq!(calls::run(&mut board, &[first; 8]), Ok((8, 0)));
            assert_eq!(calls::step(&mut board, first), Ok(Answer::Decided(0, figure, 1)));
            let (steps, last) =
                if above { (17, Answer::Decided(1, figure, 1)) } else { (8, Answer::Decided(0, figure, 2)) };
            assert_eq!(calls::run(&mut board, &vec![3 - first; steps]), Ok((steps, 0)));
            assert_eq!(calls::step(&mut board, 3 - first), Ok(last));
        }
    }
}

/// All decisions are one figure of a station that took a step, over every run from a start and over made lists; both ways to
/// end are met.
#[test]
fn one_figure_is_decided() {
    let mut compare = Compare::new(&Reference);
    for (k, figures) in [(2, [7, 3]), (2, [3, 7]), (3, [5, -5]), (4, [i32::MIN, i32::MAX]), (2, [5, 5])] {
        compare.every_run_of_two(k, figures);
    }
    (0..600).for_each(|seed| compare.list_of_two(seed));
    compare.circling_of_two(0);
    compare.first_of_two(0);
    assert_eq!((compare.failed, &compare.told), (0, &vec![]));
    assert!(compare.counts.two_decided > 1000 && compare.counts.two_undecided > 1000, "{:?}", compare.counts);
}

/// A sheet lays no two stations, whatever K is, and what was laid before stays in force.
#[test]
fn sheets() {
    let sheet = "(board 2 2)\n(show)\n(board 2 1)\n(board 3 2)\n(propose 3 5)\n(board 2 2)\n(board 2 99)\n(show)\n(propose 2 1)\n\
                 (board 2 0)\n(steps 1 2 3)\n(board 1 2)\n(board 2 2)\n(show)\n";
    let told = "(refused 8)\n(refused 5)\n(refused 8)\n(laid 3 2)\n(proposed 3 5)\n(refused 8)\n(refused 8)\n\
                (stations (1 idle) (2 idle) (3 going 0 5))\n(proposed 2 1)\n(refused 8)\n(ran 2 1)\n(laid 1 2)\n(refused 8)\n\
                (stations (1 idle))\n";
    assert_eq!(String::from_utf8(play(sheet.as_bytes())).unwrap(), told);
}

/// A line that is lent memory with a board of two stations goes on there.
#[test]
fn lines_on_lent_memory() {
    let mut board = with_figures(2, 2, &[7, 3]);
    let told = [
        ("(show)", "(stations (1 going 0 7) (2 going 0 3))"),
        ("(propose 1 5)", "(refused 22)"),
        ("(propose 3 5)", "(refused 12)"),
        ("(propose (2 5) (1 5))", "(refused 22)"),
        ("(propose (0 5) (1 5))", "(refused 12)"),
        ("(propose (1 5) (1 5))", "(refused 20)"),
        ("(board 2 2)", "(refused 8)"),
        ("(steps 1 2 3 (times 8 2))", "(ran 10 1)"),
        ("(rounds 0 ())", "(refused 18)"),
        ("(steps 1 1)", "(ran 2 0)"),
        ("(rounds 1 (2) () ())", "(played 3 2)"),
        ("(show)", "(stations (1 decided 0 7) (2 decided 0 7))"),
    ];
    for (line, expected) in told {
        assert_eq!(printed(&Reference, line, &mut board), expected, "{line}");
    }
    let mut memory = [board, vec![9; 64]].concat();
    assert_eq!(play_line(b"(board 2 2)", 136, &mut memory), ("(refused 8)".to_string(), 136));
    assert_eq!(play_line(b"(board 3 2)", 136, &mut memory), ("(laid 3 2)".to_string(), 200));
}
