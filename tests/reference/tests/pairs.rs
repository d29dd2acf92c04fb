//! Figures put in together as the request has them: its sentences, tried on lines and on sound boards.

use reference::boards::{half_idle, sound};
use reference::bytes::length;
use reference::calls;
use reference::model::Standing;
use reference::pair_lists::{idle, odd, some};
use reference::pairs::{named_twice, Pair};
use reference::random::Random;
use reference::refusal::Refusal;
use reference::sheet::play;

fn plays(sheet: &[&str], printed: &[&str]) {
    let out = String::from_utf8(play(sheet.join("\n").as_bytes())).unwrap();
    assert_eq!(out.lines().collect::<Vec<_>>(), printed);
}

fn fresh(n: u8, k: u8) -> Vec<u8> {
    let mut board = vec![9; length(n, k)];
    assert!(calls::lay(&mut board, n, k).is_ok());
    board
}

fn refused(board: &[u8], pairs: &[Pair]) -> Result<(), Refusal> {
    let mut after = board.to_vec();
    let answer = calls::propose_all(&mut after, pairs);
    assert!(answer.is_ok() || after == board, "{pairs:?} is refused and alters the board");
    answer
}

/// The document's first sheet, its two proposals in the request's own line.
#[test]
fn the_requests_own_line() {
    plays(
        &[
            "(board 3 2)",
            "(propose (1 -40) (2 15))",
            "(steps (times 12 1))",
            "(show)",
            "(steps (times 24 2))",
            "(show)",
        ],
        &[
            "(laid 3 2)",
            "(proposed 2)",
            "(ran 12 0)",
            "(stations (1 decided 0 -40) (2 going 0 15) (3 idle))",
            "(ran 12 12)",
            "(stations (1 decided 0 -40) (2 decided 0 -40) (3 idle))",
        ],
    );
}

/// "at least one pair", and "m pairs": one pair is told as 1, and the older form as it was.
#[test]
fn what_a_line_prints() {
    plays(
        &[
            "(board 4 2)",
            "(propose)",
            "(propose ())",
            "(propose (1 5))",
            "(propose 2 5)",
            "(propose (4 5) (3 5))",
            "(show)",
        ],
        &[
            "(laid 4 2)",
            "(refused 4)",
            "(refused 4)",
            "(proposed 1)",
            "(proposed 2 5)",
            "(proposed 2)",
            "(stations (1 going 0 5) (2 going 0 5) (3 going 0 5) (4 going 0 5))",
        ],
    );
}

/// "It refuses before 12: 20 .. Then pairs are tried as written, 12 before 13 in each, and the first fault is answered."
#[test]
fn refusals_of_a_line() {
    let tried = [
        ("(propose (1 1) (1 1))", "(refused 20)"),
        ("(propose (1 1) (3 3) (1 2))", "(refused 20)"),
        ("(propose (0 1) (0 1))", "(refused 20)"),
        ("(propose (17 1) (17 2))", "(refused 20)"),
        ("(propose (2 1) (4 1) (0 1) (1 1) (1 1))", "(refused 20)"),
        ("(propose (2 1) (4 1))", "(refused 13)"),
        ("(propose (4 1) (2 1))", "(refused 12)"),
        ("(propose (1 1) (3 3) (2 1))", "(refused 13)"),
        ("(propose (1 1) (3 3) (99 1) (2 1))", "(refused 12)"),
        ("(propose (100 1) (1 1) (1 1))", "(refused 4)"),
        ("(show)", "(stations (1 idle) (2 going 0 15) (3 idle))"),
        ("(propose (1 1) (3 3))", "(proposed 2)"),
        ("(propose (1 1) (3 3))", "(refused 13)"),
    ];
    let (lines, answers): (Vec<&str>, Vec<&str>) = tried.into_iter().unzip();
    let (head, told) =
        (["(propose (1 1) (1 1))", "(board 3 2)", "(propose 2 15)"], ["(refused 5)", "(laid 3 2)", "(proposed 2 15)"]);
    plays(&[&head[..], &lines].concat(), &[&told[..], &answers].concat());
}

/// "the board afterwards equals that of single proposals in any order": each list in a few orders.
#[test]
fn any_order() {
    let mut r = Random::new(61);
    for _ in 0..3000 {
        let (n, k) = r.laid_size();
        let board = half_idle(&mut r, n, k);
        let mut pairs = some(&mut r, &idle(&board));
        let mut together = board.clone();
        assert_eq!(calls::propose_all(&mut together, &pairs), Ok(()));
        for _ in 0..4 {
            r.shuffle(&mut pairs);
            let [mut single, mut again] = [board.clone(), board.clone()];
            pairs.iter().for_each(|(i, v)| assert_eq!(calls::propose(&mut single, *i, *v), Ok(())));
            assert_eq!(calls::propose_all(&mut again, &pairs), Ok(()));
            assert!(single == together && again == together);
        }
    }
}

/// "All are accepted or none": what is refused alters nothing, and names a fault that is there; the first one.
#[test]
fn all_or_none() {
    let mut r = Random::new(62);
    for _ in 0..6000 {
        let (n, k) = (r.between(1, 7) as u8, 2);
        let board = half_idle(&mut r, n, k);
        let pairs = odd(&mut r, n, &idle(&board), &[0, n + 1, 255]);
        let fault = |(station, _): &Pair| match calls::standing(&board, *station) {
            Err(refusal) => Some(refusal),
            Ok(_) if n == 2 => Some(Refusal::TwoStations),
            Ok((Standing::Idle, _)) => None,
            Ok(_) => Some(Refusal::NotIdle),
        };
        let expected = match pairs.iter().find_map(fault) {
            _ if named_twice(&pairs) => Err(Refusal::NamedTwice),
            Some(refusal) => Err(refusal),
            None => Ok(()),
        };
        assert_eq!(refused(&board, &pairs), expected, "{pairs:?}");
    }
}

/// Stations are 0 to 255 in a library call. No pair is none too many, and 255 different numbers are not 20.
#[test]
fn lists_of_any_length() {
    let board = fresh(16, 2);
    let list = |stations: std::ops::RangeInclusive<u8>| stations.map(|station| (station, 1)).collect::<Vec<Pair>>();
    assert_eq!(refused(&board, &[]), Ok(()));
    assert_eq!(refused(&board, &list(1..=16)), Ok(()));
    for many in [list(0..=16), list(1..=17), list(1..=255), list(0..=255)] {
        assert_eq!(refused(&board, &many), Err(Refusal::NoSuchStation));
        for again in 0..many.len() {
            let twice = [&many[..], &many[again..=again]].concat();
            assert_eq!(refused(&board, &twice), Err(Refusal::NamedTwice));
        }
    }
}

/// 7 to 11 come before 20, whatever the pairs are.
#[test]
fn the_boards_own_refusals_come_first() {
    let mut r = Random::new(63);
    let board = sound(&mut r, 3, 2);
    let changed = |at: usize, byte: u8| {
        let mut board = board.clone();
        board[at] = byte;
        board
    };
    for pairs in [&[][..], &[(1, 1), (1, 1)], &[(0, 1)], &[(0, 1), (0, 1)]] {
        assert_eq!(refused(&board[..7], pairs), Err(Refusal::BoardTooShort));
        assert_eq!(refused(&changed(0, 17), pairs), Err(Refusal::StationCount));
        assert_eq!(refused(&changed(1, 65), pairs), Err(Refusal::IslandCount));
        assert_eq!(refused(&board[..199], pairs), Err(Refusal::BoardLength));
        assert_eq!(refused(&changed(2, 1), pairs), Err(Refusal::NotSound));
    }
}

/// A proposal makes no step, and stations that propose together are as others from then on.
#[test]
fn stations_that_proposed_together_settle() {
    let mut board = fresh(5, 2);
    let pairs: Vec<Pair> = (1..=5).map(|station| (station, station as i32 - 3)).collect();
    assert_eq!(calls::propose_all(&mut board, &pairs), Ok(()));
    for (station, figure) in pairs {
        assert_eq!(calls::standing(&board, station), Ok((Standing::Going(0, figure), 0)));
    }
    assert_eq!(calls::run(&mut board, &[1, 2, 3, 4, 5].repeat(18)), Ok((90, 0)));
    (1..=5).for_each(|station| assert_eq!(calls::standing(&board, station), Ok((Standing::Decided(0, 2), 18))));
}
