//! The runs that the public document prints.

use reference::calls;
use reference::engine::Reference;
use reference::line_batches::printed;
use reference::model::{Answer, Standing};
use reference::sheet::play;
use reference::starts::with_figures;

fn plays(sheet: &str, printed: &str) {
    let out = play(sheet.as_bytes());
    assert_eq!(String::from_utf8(out).unwrap(), printed);
}

fn number<T>(result: Result<T, reference::refusal::Refusal>) -> u8 {
    result.map_or_else(|r| r.number(), |_| 0)
}

#[test]
fn the_first_sheet() {
    plays(
        "(board 3 2)\n(propose 1 -40)\n(propose 2 15)\n(steps (times 12 1))\n(show)\n(steps (times 24 2))\n(show)\n\
         (steps 1 2 3 4)\n",
        "(laid 3 2)\n(proposed 1 -40)\n(proposed 2 15)\n(ran 12 0)\n\
         (stations (1 decided 0 -40) (2 going 0 15) (3 idle))\n(ran 12 12)\n\
         (stations (1 decided 0 -40) (2 decided 0 -40) (3 idle))\n(ran 0 4)\n",
    );
}

/// What the first sheet's first `show` prints, asked station by station, and the steps beside it.
#[test]
fn how_each_station_stands() {
    let mut board = [9; 200];
    assert!(calls::lay(&mut board, 3, 2).is_ok());
    assert!(calls::propose(&mut board, 1, -40).is_ok());
    assert!(calls::propose(&mut board, 2, 15).is_ok());
    assert_eq!(calls::run(&mut board, &[1; 12]), Ok((12, 0)));
    assert_eq!(calls::standing(&board, 1), Ok((Standing::Decided(0, -40), 12)));
    assert_eq!(calls::standing(&board, 2), Ok((Standing::Going(0, 15), 0)));
    assert_eq!(calls::standing(&board, 3), Ok((Standing::Idle, 0)));
    assert_eq!(number(calls::standing(&board, 0)), 12);
    assert_eq!(number(calls::standing(&board, 4)), 12);
    assert_eq!(calls::run(&mut board, &[2; 24]), Ok((12, 12)));
    assert_eq!(calls::standing(&board, 2), Ok((Standing::Decided(0, -40), 12)));
    assert_eq!(calls::run(&mut board, &[1, 2, 3, 4]), Ok((0, 4)));
    assert_eq!(calls::standing(&board, 1), Ok((Standing::Decided(0, -40), 12)));
    board[2] = 1;
    assert_eq!(number(calls::standing(&board, 0)), 11);
}

/// On a board "fresh but for the two proposals": no sheet lays it, but its lines play on it.
#[test]
fn two_stations_circle_until_they_are_spent() {
    let mut board = with_figures(2, 2, &[7, 3]);
    let line = "(steps (times 2 (times 3 2) (times 3 1) (times 3 2) (times 6 1) (times 3 2)))";
    assert_eq!(printed(&Reference, line, &mut board), "(ran 36 0)");
    assert_eq!(calls::show(&board), Ok("(stations (1 spent 1 7) (2 spent 1 3))".to_string()));
}

#[test]
fn one_figure_is_decided_on_island_0() {
    plays(
        "(board 3 2)\n(propose 1 5)\n(propose 2 5)\n(propose 3 5)\n(steps (times 12 1 2 3))\n(show)\n",
        "(laid 3 2)\n(proposed 1 5)\n(proposed 2 5)\n(proposed 3 5)\n(ran 36 0)\n\
         (stations (1 decided 0 5) (2 decided 0 5) (3 decided 0 5))\n",
    );
}

#[test]
fn alone_six_steps_decide() {
    let mut board = [7; 72];
    assert!(calls::lay(&mut board, 1, 2).is_ok());
    assert!(calls::propose(&mut board, 1, -9).is_ok());
    let answers: Vec<Answer> = (0..6).map(|_| calls::step(&mut board, 1).unwrap()).collect();
    assert!(matches!(answers[5], Answer::Decided(0, -9, 1)));
    assert_eq!(number(calls::step(&mut board, 1)), 15);
}

#[test]
fn lengths_and_counts() {
    assert_eq!(number(calls::lay(&mut [0; 16_904], 16, 64)), 0);
    assert_eq!(number(calls::lay(&mut [0; 16_903], 16, 64)), 10);
    assert_eq!(number(calls::lay(&mut [0; 16_904], 17, 64)), 8);
    assert_eq!(number(calls::lay(&mut [0; 72], 1, 1)), 9);
    assert_eq!(number(calls::lay(&mut [0; 136], 2, 2)), 8);
    assert_eq!(number(calls::lay(&mut [0; 7], 17, 1)), 7);
    assert_eq!(reference::bytes::length(3, 2), 200);
}

/// "−2,147,483,648 is above 2,147,483,647": it is what both go on with, whoever proposes it.
#[test]
fn both_ends_of_the_figures() {
    for (one, two) in [(i32::MIN, i32::MAX), (i32::MAX, i32::MIN)] {
        let sheet = format!("(board 3 2)\n(propose 1 {one})\n(propose 2 {two})\n(steps 1 2 (times 3 1 2))\n(show)\n");
        let out = String::from_utf8(play(sheet.as_bytes())).unwrap();
        assert!(out.ends_with("(stations (1 going 0 -2147483648) (2 going 0 -2147483648) (3 idle))\n"), "{out}");
        let mut board = with_figures(2, 2, &[one, two]);
        assert_eq!(calls::run(&mut board, &[1, 2, 1, 2, 1, 2]), Ok((6, 0)));
        assert_eq!([1, 2].map(|i| calls::standing(&board, i)), [Ok((Standing::Going(0, i32::MIN), 3)); 2]);
    }
}

#[test]
fn steps_and_brackets() {
    let head = "(board 1 2)\n";
    plays(&format!("{head}(steps (times 65536 1))"), "(laid 1 2)\n(ran 0 65536)\n");
    plays(&format!("{head}(steps (times 65536 1) 1)"), "(laid 1 2)\n(refused 6)\n");
    let nest = |count: usize| {
        let open = "(times 1 ".repeat(count);
        format!("{head}(steps {open}1{}\n", ")".repeat(count + 1))
    };
    plays(&nest(7), "(laid 1 2)\n(ran 0 1)\n");
    plays(&nest(8), "(laid 1 2)\n(refused 3)\n");
}

#[test]
fn odd_sheets() {
    plays("", "");
    plays("\n", "(refused 4)\n");
    plays("(show)", "(refused 5)\n");
    plays("(steps (times 65537 1))", "(refused 5)\n");
    plays("(board 17 70)\n(board 5 1)\n(board 100 2)\n", "(refused 8)\n(refused 9)\n(refused 4)\n");
    plays("(board 3 2)\n(board 0 5)\n(propose 99 1)\n", "(laid 3 2)\n(refused 8)\n(refused 12)\n");
    plays("(board 3 2)\n(steps)\n(steps (times 2))\n", "(laid 3 2)\n(ran 0 0)\n(refused 4)\n");
    plays(&format!("){}", "(".repeat(9)), "(refused 4)\n");
    plays(&format!("){}", "(".repeat(10)), "(refused 3)\n");
    plays(&" ".repeat(32_769), "(refused 1)\n");
    plays(&" ".repeat(32_768), "(refused 2)\n");
}
