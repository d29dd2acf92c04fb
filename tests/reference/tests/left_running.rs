//! What is said of a station left alone and of stations that propose one figure, on every board that one or two stations can
//! come to, behind built lists and behind made ones; and that nothing of what is asked of the board can be left out.

use reference::boards::sound;
use reference::bytes::Fields;
use reference::calls;
use reference::compare::Compare;
use reference::engine::Reference;
use reference::halted_lists::{all_built, behind_one, made, overtaken, Built, List, Part};
use reference::left_running::{alone, going, highest_island, judged, one_figure, pass, played, Ended};
use reference::model::Standing;
use reference::random::Random;
use reference::reach::every_board;
use reference::starts;

/// The most steps of a station left alone where that must decide, and how many are spent where it need not, over every board
/// that these figures lead to.
fn over_every_board(k: u8, figures: &[i32]) -> (usize, u64) {
    let (mut most, mut spent) = (0, 0);
    for board in every_board(k, figures) {
        for station in going(&Reference, &board) {
            let run = alone(&Reference, &board, station);
            match judged(&board, station, &run).unwrap() {
                Ended::Untouched | Ended::Within => most = most.max(run.answers.len()),
                Ended::DecidedAnyway => {}
                Ended::Spent => spent += 1,
            }
        }
    }
    (most, spent)
}

/// One station needs one pass and no more, however many islands there are.
#[test]
fn every_board_of_one_station() {
    for k in 2..=64 {
        assert_eq!(over_every_board(k, &[-9]), (6, 0));
    }
}

/// Two need two passes and one step more where there are three islands: that step is the last read of B. They need it only
/// where the first station has the lower figure.
#[test]
fn every_board_of_two_stations() {
    for k in [2, 3, 4, 5, 9] {
        assert_eq!(over_every_board(k, &[3, 7]), (if k == 2 { 18 } else { 19 }, 180));
        assert_eq!(over_every_board(k, &[7, 3]), (18, 180));
        assert_eq!(over_every_board(k, &[5, -5]), (18, 180));
        assert_eq!(over_every_board(k, &[5, 5]), (9, 0));
    }
}

/// Each built list leaves an island above the highest in m, and the station needs all the steps that it is built for.
#[test]
fn built_lists_need_their_steps() {
    for Built { list, station, steps } in all_built() {
        let board = played(&Reference, &list);
        assert!(highest_island(&board).unwrap() + 2 <= list.k);
        let run = alone(&Reference, &board, station);
        assert_eq!((judged(&board, station, &run), run.answers.len()), (Ok(Ended::Within), steps), "{list:?}");
        let mut before = board.clone();
        assert_eq!(calls::run(&mut before, &vec![station; steps - 1]), Ok((steps - 1, 0)));
        assert!(matches!(calls::standing(&before, station), Ok((Standing::Going(..), _))));
    }
}

/// The longest of all in numbers: two steps below three passes, on the first islands and up to the last one.
#[test]
fn the_longest_runs() {
    let longest = |n, k, island| {
        let Built { list, station, .. } = overtaken(n, k, island);
        let run = alone(&Reference, &played(&Reference, &list), station);
        let (Standing::Decided(on, _), _) = calls::standing(&run.board, station).unwrap() else { panic!("it decides") };
        (run.answers.len(), on)
    };
    assert_eq!(longest(3, 3, 0), (34, 2));
    assert_eq!(longest(4, 3, 0), (43, 2));
    assert_eq!(longest(5, 4, 1), (52, 3));
    assert_eq!(longest(8, 64, 0), (79, 2));
    assert_eq!(longest(16, 3, 0), (151, 2));
    assert_eq!(longest(16, 64, 61), (151, 63));
}

/// The same lists with one island fewer: the highest in m is the last one, and the station is spent.
#[test]
fn spent_where_no_island_is_left() {
    for (n, k) in [(3, 2), (3, 3), (5, 4), (16, 2)] {
        let Built { list, station, steps } = overtaken(n, k, k - 2);
        let board = played(&Reference, &list);
        assert_eq!(highest_island(&board), Some(k - 1));
        let run = alone(&Reference, &board, station);
        assert_eq!(judged(&board, station, &run), Ok(Ended::Spent));
        assert_eq!(run.answers.len(), steps - pass(n));
    }
}

/// On sound boards that no calls lead to neither holds: registers may stand on islands that nobody has reached.
#[test]
fn only_on_boards_that_were_reached() {
    let mut r = Random::new(91);
    let (mut without, mut late) = (0, 0);
    for _ in 0..4000 {
        let board = sound(&mut r, 3, 12);
        let m_fits = highest_island(&board).is_none_or(|island| island + 2 <= 12);
        for station in going(&Reference, &board).into_iter().filter(|_| m_fits) {
            let run = alone(&Reference, &board, station);
            without += (run.answers.last().unwrap() >> 8 & 0xFF == 7) as u32;
            late += (run.answers.len() > 3 * pass(3)) as u32;
        }
    }
    assert!(without > 0 && late > 0, "{without} are spent, {late} go on");
}

/// Two figures are enough for a station to need more than one pass, or another island.
#[test]
fn one_figure_is_needed() {
    let Built { list, station, steps } = behind_one(2, 2, 0);
    let run = alone(&Reference, &played(&Reference, &list), station);
    assert_eq!((run.answers.len(), steps), (18, 18));
    assert!(matches!(calls::standing(&run.board, station), Ok((Standing::Decided(1, _), 18))));
}

/// Three stations of which one comes late and one is halted amid each collect.
#[test]
fn one_figure_whoever_moves() {
    let mut parts = vec![Part::Propose(1, -5), Part::Propose(2, -5)];
    for (station, count) in [(1, 3), (2, 9), (1, 3), (3, 2), (1, 5), (2, 2)] {
        parts.push(Part::Steps(station, count));
    }
    parts.extend([Part::Propose(3, -5), Part::Propose(1, 7), Part::Steps(3, 11), Part::Steps(2, 1), Part::Steps(3, 1)]);
    let list = List { n: 3, k: 2, parts };
    let (decided, board) = one_figure(&Reference, &list, -5).unwrap();
    assert_eq!(decided, 3);
    for station in 1..=3 {
        assert_eq!(calls::standing(&board, station), Ok((Standing::Decided(0, -5), 12)));
    }
}

/// A fresh board leaves every island, so whoever proposes on it decides in one pass.
#[test]
fn before_any_step() {
    for (n, k) in [(1, 2), (2, 64), (7, 3), (16, 64)] {
        let mut board = starts::fresh(n, k);
        (1..=n).for_each(|station| assert!(starts::put_in(&mut board, station, i32::MIN + station as i32)));
        for station in 1..=n {
            let run = alone(&Reference, &board, station);
            assert_eq!(judged(&board, station, &run), Ok(Ended::Untouched));
            assert_eq!(run.answers.len(), pass(n));
        }
    }
}

/// What is known beyond the promise: a station that starts a pass reads the highest island in m and needs two, so that three
/// take at least a write and a read less; and with two islands there are no three.
#[test]
fn never_as_long_as_promised() {
    let mut r = Random::new(92);
    for _ in 0..600 {
        let list = made(&mut r, &[1, -2, 3]);
        let board = played(&Reference, &list);
        let most = if list.k == 2 { 2 * pass(list.n) } else { 3 * pass(list.n) - 2 };
        for station in going(&Reference, &board) {
            let run = alone(&Reference, &board, station);
            let starts = Fields::of_bytes(&board).records[station as usize - 1].phase == 1;
            assert!(run.answers.len() <= if starts { 2 * pass(list.n) } else { most }, "{list:?}");
        }
    }
}

/// Made lists keep to their figures, and each way to end is met behind them.
#[test]
fn made_lists() {
    let mut compare = Compare::new(&Reference);
    for seed in 0..400 {
        compare.left_alone(seed);
        compare.of_one_figure(seed);
        let list = made(&mut Random::new(seed), &[4, -4]);
        let f = Fields::of_bytes(&played(&Reference, &list));
        assert!(f.records.iter().all(|r| r.phase == 0 || matches!(r.proposal, 4 | -4)));
    }
    let ends = &compare.counts.ends;
    assert_eq!((compare.failed, &compare.told), (0, &vec![]));
    assert!(ends.untouched > 500 && ends.within > 4000 && ends.decided_anyway > 100 && ends.spent > 50, "{ends:?}");
    assert!(ends.longest[1] == 6 && ends.longest[2] >= 18 && ends.longest[3] > 24, "{ends:?}");
}
