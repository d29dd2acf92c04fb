//! Rounds as the request has them: habits that were found, and sentences about rounds tried on sound boards.

use reference::boards::between_collects;
use reference::calls;
use reference::habits;
use reference::halts::Halts;
use reference::model::Standing;
use reference::random::Random;
use reference::refusal::Refusal;
use reference::sheet::play;
use reference::starts::with_figures;

/// A fresh board on which the stations have proposed these figures.
fn proposed(k: u8, figures: &[i32]) -> Vec<u8> {
    with_figures(figures.len() as u8, k, figures)
}

fn one_round(board: &mut [u8], suspended: &[u8]) {
    let halts = Halts { most: suspended.len() as u8, rounds: vec![suspended.to_vec()] };
    assert!(calls::rounds(board, &halts).is_ok());
}

fn count(board: &[u8], holds: fn(Standing) -> bool) -> usize {
    (1..=board[0]).filter(|s| holds(calls::standing(board, *s).unwrap().0)).count()
}

fn decided(board: &[u8]) -> usize {
    count(board, |s| matches!(s, Standing::Decided(..)))
}

fn spent(board: &[u8]) -> usize {
    count(board, |s| matches!(s, Standing::Spent(..)))
}

/// A few rounds, and then others over and over.
struct Habit<'a> {
    first: &'a [&'a [u8]],
    again: &'a [&'a [u8]],
}

impl<'a> Habit<'a> {
    fn rounds(&self) -> impl Iterator<Item = &'a [u8]> {
        self.first.iter().chain(self.again.iter().cycle()).copied()
    }
}

const THREE: Habit = Habit { first: &[&[], &[1], &[2]], again: &[&[3], &[1], &[], &[2]] };
const FOUR: Habit = Habit { first: &[&[1]], again: &[&[3], &[2], &[4], &[1]] };
const FIVE: Habit = Habit { first: &[&[], &[1], &[2]], again: &[&[3], &[4], &[5], &[1], &[], &[2]] };

/// Four rounds use up an island: on any K all are spent after 4K rounds, one of them in the round before.
#[test]
fn three_and_four_stations_circle() {
    for (habit, figures) in [(THREE, &[0, 0, 1][..]), (FOUR, &[0, 0, 0, 1])] {
        for k in [2, 3, 8, 64] {
            let mut board = proposed(k, figures);
            let rounds = 4 * k as usize;
            for (at, suspended) in habit.rounds().take(rounds).enumerate() {
                assert!(at + 1 >= rounds - 1 || spent(&board) == 0, "round {}", at + 1);
                one_round(&mut board, suspended);
            }
            assert_eq!((spent(&board), decided(&board)), (figures.len(), 0));
        }
    }
    let mut board = proposed(8, &[0, 0, 1]);
    THREE.rounds().take(30).for_each(|suspended| one_round(&mut board, suspended));
    assert_eq!(spent(&board), 0);
    one_round(&mut board, &[2]);
    assert_eq!(spent(&board), 1);
    one_round(&mut board, &[3]);
    assert_eq!(spent(&board), 3);
}

/// The paper's own rounds, all writes and then all collects, are another thing: there the same habit settles.
#[test]
fn in_the_papers_rounds_three_stations_settle() {
    let mut board = proposed(8, &[0, 0, 1]);
    for suspended in THREE.rounds().take(32) {
        let free: Vec<u8> = (1..=3).filter(|s| !suspended.contains(s)).collect();
        let collects: Vec<u8> = free.iter().flat_map(|s| [*s; 3]).collect();
        assert!(calls::run(&mut board, &[free, collects].concat()).is_ok());
    }
    assert_eq!(decided(&board), 3);
}

#[test]
fn five_stations_settle_under_the_same_habit() {
    let mut board = proposed(8, &[0, 0, 0, 0, 1]);
    FIVE.rounds().take(7).for_each(|suspended| one_round(&mut board, suspended));
    assert_eq!(decided(&board), 4);
    one_round(&mut board, &[]);
    assert_eq!(decided(&board), 5);
}

/// With at most one of them suspended in a round, five stations decided within 37 rounds and six within 32 in a search;
/// here some such habits at random.
#[test]
fn five_and_six_stations_settle() {
    let mut r = Random::new(41);
    for (n, rounds) in [(5, 37), (6, 32)] {
        for _ in 0..1500 {
            let figures: Vec<i32> = (0..n).map(|_| r.below(3) as i32).collect();
            let mut board = proposed(16, &figures);
            let any = |r: &mut Random| Some(r.below(n + 1) as u8).filter(|s| *s > 0).into_iter().collect();
            let halts = Halts { most: 1, rounds: (0..rounds).map(|_| any(&mut r)).collect() };
            assert_eq!(calls::rounds(&mut board, &halts), Ok((rounds, n)), "{figures:?} {}", halts.to_line());
        }
    }
}

/// "each round spelled out as its single steps": n + 1 of each station that is not suspended, refused ones passed over.
#[test]
fn rounds_are_their_single_steps() {
    let mut r = Random::new(42);
    for _ in 0..6000 {
        let (n, k) = (r.between(1, 6) as u8, r.between(2, 4) as u8);
        let mut whole = between_collects(&mut r, n, k);
        let mut single = whole.clone();
        let halts = habits::made(&mut r, n, 8);
        assert!(calls::run(&mut single, &halts.single_steps(n)).is_ok());
        assert_eq!(calls::rounds(&mut whole, &halts), Ok((halts.rounds.len(), decided(&single))));
        assert_eq!(whole, single);
    }
}

/// 18 is tested once: after a round nobody stands amid a collect. Of a list that is cut in two, both parts play as one.
#[test]
fn rounds_may_be_cut_anywhere() {
    let mut r = Random::new(43);
    for _ in 0..4000 {
        let (n, k) = (r.between(1, 6) as u8, r.between(2, 4) as u8);
        let mut whole = between_collects(&mut r, n, k);
        let mut parts = whole.clone();
        let halts = habits::made(&mut r, n, 8);
        let (first, second) = halts.rounds.split_at(r.below(halts.rounds.len() + 1));
        let played = calls::rounds(&mut whole, &halts).map(|(_, decided)| decided);
        assert!(calls::rounds(&mut parts, &Halts { most: halts.most, rounds: first.to_vec() }).is_ok());
        let last = calls::rounds(&mut parts, &Halts { most: halts.most, rounds: second.to_vec() });
        assert_eq!(last.map(|(_, decided)| decided), played);
        assert_eq!(whole, parts);
    }
}

#[test]
fn refusals_of_a_call() {
    let halts =
        |most: u8, rounds: &[&[u8]]| Halts { most, rounds: rounds.iter().map(|named| named.to_vec()).collect() };
    let mut board = proposed(2, &[4, 5, 6]);
    let fresh = board.clone();
    for unfit in [&[0][..], &[4], &[254], &[2, 1], &[2, 2], &[1, 2, 3, 4]] {
        assert_eq!(calls::rounds(&mut board, &halts(4, &[&[], unfit])), Err(Refusal::BadRound));
    }
    assert_eq!(calls::rounds(&mut board, &halts(1, &[&[], &[1, 2]])), Err(Refusal::BadRound));
    assert_eq!(board, fresh);
    assert_eq!(calls::rounds(&mut board[..7], &halts(0, &[&[0]])), Err(Refusal::BoardTooShort));
    assert!(calls::step(&mut board, 3).is_ok());
    for asked in [halts(0, &[]), halts(1, &[&[3]]), halts(1, &[&[0]])] {
        assert_eq!(calls::rounds(&mut board, &asked), Err(Refusal::AmidCollect));
    }
    board[2] = 1;
    assert_eq!(calls::rounds(&mut board, &halts(1, &[])), Err(Refusal::NotSound));
}

#[test]
fn what_a_line_prints() {
    let sheet = "(rounds 0)\n(board 3 2)\n(propose 1 7)\n(propose 3 3)\n(rounds 0)\n(rounds 0 () () () () () ())\n\
        (rounds 2 (1 2) ())\n(rounds 1 (1 2))\n(rounds 100)\n(show)\n";
    let printed = "(refused 5)\n(laid 3 2)\n(proposed 1 7)\n(proposed 3 3)\n(played 0 0)\n(played 6 2)\n(played 2 2)\n\
        (refused 19)\n(refused 4)\n(stations (1 decided 0 7) (2 idle) (3 decided 0 7))\n";
    assert_eq!(String::from_utf8(play(sheet.as_bytes())).unwrap(), printed);
}
