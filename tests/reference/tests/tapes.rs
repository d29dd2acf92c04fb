//! "Two tapes of one run": what is said of the algorithm's own tape, of a tape's lines, and of the line that is blamed.

use reference::model::{Answer, Mark};
use reference::refusal::Refusal;
use reference::tape_edges::CIRCLING;
use reference::tapes::{compared, culprit, own, read, taped, text, Taped};

fn tapes(sheet: &str, lines: &[&str]) {
    let expected: String = lines.iter().map(|line| format!("{line}\n")).collect();
    assert_eq!(String::from_utf8(taped(sheet.as_bytes())).unwrap(), expected, "{sheet}");
}

fn lines_of(sheet: &str) -> String {
    String::from_utf8(taped(sheet.as_bytes())).unwrap()
}

fn says(sheet: &str, first: &str, second: &str, printed: &str) {
    let line = compared(sheet.as_bytes(), first.as_bytes(), second.as_bytes());
    assert_eq!(String::from_utf8(line).unwrap(), format!("{printed}\n"), "{first:?} beside {second:?}");
}

const FIRST: &str =
    "(board 3 2)\n(propose 1 -40)\n(propose 2 15)\n(steps (times 12 1))\n(show)\n(steps (times 24 2))\n(show)\n\
                     (steps 1 2 3 4)\n";

/// One station alone: no collect has a *read*.
const ALONE: &str = "(board 1 2)\n(propose 1 -9)\n(steps (times 6 1))\n";

const ALONE_TAPE: &str = "(1 wrote)\n(1 went 0 -9 1)\n(1 wrote)\n(1 marked 2 -9 1)\n(1 wrote)\n(1 decided 0 -9 1)\n";

#[test]
#[rustfmt::skip]
fn the_first_sheet() {
    tapes(FIRST, &[
        "(1 wrote)", "(1 read 1)", "(1 read 0)", "(1 went 0 -40 1)",
        "(1 wrote)", "(1 read 1)", "(1 read 0)", "(1 marked 2 -40 1)",
        "(1 wrote)", "(1 read 1)", "(1 read 0)", "(1 decided 0 -40 1)",
        "(2 wrote)", "(2 read 1)", "(2 read 1)", "(2 went 0 -40 2)",
        "(2 wrote)", "(2 read 1)", "(2 read 1)", "(2 marked 2 -40 2)",
        "(2 wrote)", "(2 read 1)", "(2 read 1)", "(2 decided 0 -40 2)",
    ]);
}

#[test]
fn one_station() {
    assert_eq!(lines_of(ALONE), ALONE_TAPE);
}

/// The run with 7 and 3 by two of three stations: an adopt below the last island carries the next one, on the last island it
/// is spent.
#[test]
#[rustfmt::skip]
fn circling() {
    tapes(&format!("{CIRCLING}(steps 1 2 3)"), &[
        "(2 wrote)", "(2 read 0)", "(2 read 1)", "(2 went 0 3 1)", "(1 wrote)", "(1 read 1)", "(1 read 1)", "(1 went 0 7 2)",
        "(2 wrote)", "(2 read 0)", "(2 read 1)", "(2 marked 2 3 1)", "(1 wrote)", "(1 read 1)", "(1 read 1)", "(1 marked 1 7 2)",
        "(1 wrote)", "(1 read 1)", "(1 read 0)", "(1 adopted 1 7 1)", "(2 wrote)", "(2 read 1)", "(2 read 1)", "(2 adopted 1 3 2)",
        "(2 wrote)", "(2 read 1)", "(2 read 1)", "(2 went 1 3 2)", "(1 wrote)", "(1 read 1)", "(1 read 1)", "(1 went 1 7 2)",
        "(2 wrote)", "(2 read 0)", "(2 read 1)", "(2 marked 2 3 1)", "(1 wrote)", "(1 read 1)", "(1 read 1)", "(1 marked 1 7 2)",
        "(1 wrote)", "(1 read 1)", "(1 read 0)", "(1 spent 1 7 1)", "(2 wrote)", "(2 read 1)", "(2 read 1)", "(2 spent 1 3 2)",
    ]);
}

/// A second board begins no new tape, and a laying that is refused leaves the board that there is.
#[test]
fn several_boards_go_on_in_one_tape() {
    let other = "(board 3 2)\n(propose 2 5)\n(board 17 2)\n(board 3 1)\n(board 2 2)\n(steps 2 2 2 2)";
    let others = "(2 wrote)\n(2 read 0)\n(2 read 1)\n(2 went 0 5 1)\n";
    assert_eq!(lines_of(&format!("{ALONE}{other}")), format!("{ALONE_TAPE}{others}"));
    assert_eq!(lines_of(&format!("{other}\n{ALONE}")), format!("{others}{ALONE_TAPE}"));
    assert_eq!(lines_of(&format!("{ALONE}{ALONE}")), format!("{ALONE_TAPE}{ALONE_TAPE}"));
}

/// "a refused line adds nothing", whatever refuses it.
#[test]
#[rustfmt::skip]
fn refused_lines_add_nothing() {
    let long = format!("(steps{})", " 1".repeat(125));
    assert_eq!(long.len(), 257);
    for line in [
        "", " ", "(steps 1", "(steps 1) ", "(steps 01)", "(steps 100)", "(steps (times 0 1))", "(steps (1))",
        "(Steps 1)", &long, "(steps (((((((((", "(board 3 65)", "(board 0 2)", "(board 2 2)", "(propose 1 5)", "(propose 0 1)",
        "(propose (2 5) (2 5))", "(propose (2 5) (1 5))", "(steps (times 65537 1))", "(steps 1 (times 65536 2))",
        "(rounds 0 (1))", "(rounds 1 (4))", "(rounds 2 () (2 1))", "(wrote)", "(1 wrote)", "(show)",
    ] {
        let sheet = format!("(board 3 2)\n(propose 1 7)\n{line}\n(steps 1)\n");
        assert_eq!(lines_of(&sheet), "(1 wrote)\n", "{line}");
        let before = format!("{line}\n(board 3 2)\n(propose 1 7)\n(steps 1)");
        assert_eq!(lines_of(&before), "(1 wrote)\n", "{line}");
    }
    // Amid a collect no round is played, not even one that suspends whoever reads.
    assert_eq!(lines_of("(board 3 2)\n(propose 1 7)\n(steps 1)\n(rounds 1 (1))\n(steps 1)"), "(1 wrote)\n(1 read 1)\n");
    // Of pairs that are refused none is put in.
    assert_eq!(lines_of("(board 3 2)\n(propose (1 5) (4 5))\n(steps 1 2)\n(propose (2 4))\n(steps 1 2)"), "(2 wrote)\n");
}

/// "refused steps leave no line": of stations that are not there, idle, decided or spent.
#[test]
fn refused_steps_leave_no_line() {
    let sheet = "(board 1 2)\n(steps 1)\n(propose 1 -9)\n(steps 0 1 2 99 1 (times 7 0 1 3))\n(steps 1 1 1)";
    assert_eq!(lines_of(sheet), ALONE_TAPE);
    assert_eq!(lines_of("(board 3 2)\n(steps (times 65536 1))\n(rounds 0 () ())"), "");
}

/// 65,536 steps add their lines, 65,537 none.
#[test]
fn as_many_steps_as_a_line_may_ask_for() {
    let most = lines_of("(board 1 2)\n(propose 1 -9)\n(steps (times 16384 1 1 (times 2 1)))");
    assert_eq!(most, ALONE_TAPE);
    assert_eq!(lines_of("(board 1 2)\n(propose 1 -9)\n(steps (times 16384 1 1 (times 2 1)) 1)"), "");
}

/// "a `rounds` line adds its single steps", in station order, a write and its collect of each that is not suspended.
#[test]
#[rustfmt::skip]
fn rounds_add_their_single_steps() {
    let head = "(board 3 2)\n(propose (2 3) (1 7))\n";
    tapes(&format!("{head}(rounds 1 (1) ())"), &[
        "(2 wrote)", "(2 read 0)", "(2 read 1)", "(2 went 0 3 1)", "(1 wrote)", "(1 read 1)", "(1 read 1)", "(1 went 0 7 2)",
        "(2 wrote)", "(2 read 0)", "(2 read 1)", "(2 marked 2 3 1)",
    ]);
    let singles = "(steps (times 4 2) (times 4 1) (times 4 2) (times 4 1) (times 4 2) (times 4 1) (times 4 2))";
    let rounds = "(rounds 1 (1) () () () (1))";
    assert_eq!(lines_of(&format!("{head}{rounds}")), lines_of(&format!("{head}{singles}")));
    assert_eq!(lines_of(&format!("{head}(rounds 2 (1 2))\n(rounds 0)")), "");
}

#[test]
fn a_sheet_too_long() {
    let sheet = |length: usize| {
        let line = "(steps 9)\n";
        let lines = (length - ALONE.len() - 1) / line.len();
        let mut out = format!("{ALONE}{}", line.repeat(lines)).into_bytes();
        out.resize(length, b' ');
        out
    };
    assert_eq!(taped(&sheet(32_768)), ALONE_TAPE.as_bytes());
    assert_eq!(taped(&sheet(32_769)), b"(refused 1)\n");
    let tape = ALONE_TAPE.as_bytes();
    assert_eq!(compared(&sheet(32_768), tape, b"(1 read 0)"), b"1 2 (1 read 0)\n");
    // 1 before 21.
    assert_eq!(compared(&sheet(32_768), tape, b"\n"), b"(refused 21)\n");
    assert_eq!(compared(&sheet(32_769), tape, b"\n"), b"(refused 1)\n");
    assert_eq!(compared(&sheet(32_769), tape, tape), b"(refused 1)\n");
}

#[test]
fn no_more_lines_than_asked_for() {
    let all = own(FIRST.as_bytes(), usize::MAX);
    assert_eq!(all.len(), 24);
    for lines in 0..30 {
        assert_eq!(own(FIRST.as_bytes(), lines), all[..lines.min(24)]);
    }
    assert_eq!(text(&all), taped(FIRST.as_bytes()));
}

/// Every kind with every field at both ends of its range.
#[test]
fn what_a_line_may_say() {
    let ends = [i32::MIN, -1, 0, 1, i32::MAX];
    for (station, place, total) in (0..=99).map(|at| (at, 99 - at, at / 2 * 2)) {
        for figure in ends {
            let flag = if place % 2 == 0 { Mark::Commit } else { Mark::Adopt };
            for answer in [
                Answer::Wrote,
                Answer::Read(figure > 0),
                Answer::Went(place, figure, total),
                Answer::Marked(flag, figure, total),
                Answer::Adopted(place, figure, total),
                Answer::Decided(place, figure, total),
                Answer::Spent(place, figure, total),
            ] {
                let taped = Taped { station, answer };
                assert_eq!(read(taped.to_string().as_bytes()), Some(taped));
            }
        }
    }
    assert_eq!(read(b"(0 read 0)"), Some(Taped { station: 0, answer: Answer::Read(false) }));
    assert_eq!(read(b"(99 adopted 99 -2147483648 99)").unwrap().answer, Answer::Adopted(99, i32::MIN, 99));
    assert_eq!(read(b"(1 marked 1 5 0)").unwrap().answer, Answer::Marked(Mark::Adopt, 5, 0));
}

#[test]
#[rustfmt::skip]
fn what_no_line_says() {
    for line in [
        "", " ", "()", "(1)", "(wrote)", "1 wrote", "(1 wrote", "1 wrote)", "(1 wrote)\r", "(1 wrote) ",
        " (1 wrote)", "( 1 wrote)", "(1 wrote )", "(1  wrote)", "(1\twrote)", "((1 wrote))", "(1 wrote))",
        "(1 wrote)(1 wrote)", "(1 (wrote))", "(1 Wrote)", "(1 writes)", "(1 wrote 0)", "(1 wrote 0 5 1)",
        "(wrote 1)", "(100 wrote)", "(-1 wrote)", "(-0 wrote)", "(+1 wrote)", "(01 wrote)", "(00 wrote)",
        "(1.0 wrote)", "(4294967297 wrote)", "(257 wrote)", "(1 read)", "(1 read 2)", "(1 read -1)", "(1 read 00)",
        "(1 read 01)", "(1 read 1 1)", "(1 read 0 5 1)", "(1 read 99)", "(1 read 256)", "(1 read x)",
        "(1 refused 14)", "(1 refused)", "(refused 14)", "(1 idle)", "(1 going 0 5)", "(1 decided 0 5)",
        "(1 spent 0 5)", "(1 went 0 5)", "(1 went 0 5 1 1)", "(1 went 5 1)", "(1 went 100 5 1)", "(1 went -1 5 1)",
        "(1 went 0 5 100)", "(1 went 0 5 -1)", "(1 went 00 5 1)", "(1 went 0 05 1)", "(1 went 0 -0 1)",
        "(1 went 0 +5 1)", "(1 went 0 5 01)", "(1 went 0 2147483648 1)", "(1 went 0 -2147483649 1)",
        "(1 went 0 4294967296 1)", "(1 went 0 - 1)", "(1 went 0  1)", "(1 marked 0 5 1)", "(1 marked 3 5 1)",
        "(1 marked 12 5 1)", "(1 marked 2 5)", "(1 marked commit 5 1)", "(1 marked 02 5 1)", "(1 adopted 100 5 1)",
        "(1 decided 100 5 1)", "(1 spent 0 5 100)", "(1 proposed 5)", "(1 moved 0 5 1)", "(show)", "(1 wrote\0)",
    ] {
        assert_eq!(read(line.as_bytes()), None, "{line}");
    }
    assert_eq!(read(b"(1 wr\xffte)"), None);
    assert_eq!(read("(１ wrote)".as_bytes()), None);
}

/// 21 looks at every line of both tapes: after the difference too, and beyond the other's end.
#[test]
fn lines_that_are_no_step_answer() {
    let good = "(1 wrote)\n(1 went 0 -9 1)\n(1 wrote)\n";
    for bad in
        ["\n", "(1 refused 14)\n", "(1 read 2)\n", "(1 marked 0 5 1)\n", "(1 wrote)\r\n", "(1 wrote) \n", "x", "\n\n"]
    {
        let (behind, before) = (format!("{good}{bad}"), format!("{bad}{good}"));
        let apart = format!("(1 wrote)\n(2 wrote)\n{bad}");
        for tape in [bad, &behind, &before, &apart] {
            for other in ["", "(1 wrote)", "(1 wrote)\n", good, ALONE_TAPE, tape] {
                says(ALONE, tape, other, "(refused 21)");
                says(ALONE, other, tape, "(refused 21)");
                says("", other, tape, "(refused 21)");
            }
        }
    }
}

/// "If they never differ so, the answer is none, an empty part, even where both are wrong alike."
#[test]
fn none() {
    let wrong = "(1 wrote)\n(1 went 0 -8 1)\n(7 spent 99 5 0)\n";
    for tape in ["", "(1 wrote)", "(1 wrote)\n", ALONE_TAPE, wrong] {
        says(ALONE, tape, tape, "none");
        says("", tape, tape, "none");
        // A tape that ends early, with its last LF or without it.
        for end in ["", "(1 wrote)\n"] {
            let longer = format!("{tape}{}{end}", if tape.ends_with('\n') || tape.is_empty() { "" } else { "\n" });
            says(ALONE, tape, &longer, "none");
            says(ALONE, &longer, tape, "none");
        }
    }
    let short = &ALONE_TAPE[..ALONE_TAPE.len() - 1];
    says(ALONE, short, ALONE_TAPE, "none");
    says(ALONE, ALONE_TAPE, short, "none");
    let longer = format!("{ALONE_TAPE}(1 wrote)\n(3 read 1)");
    says(ALONE, &longer, ALONE_TAPE, "none");
    says(ALONE, ALONE_TAPE, &longer, "none");
    assert_eq!(culprit(ALONE.as_bytes(), b"", ALONE_TAPE.as_bytes()), Ok(None));
}

/// The first tape's line "if it departs from the algorithm's own line or the algorithm has none there, else the second's".
#[test]
fn who_is_blamed() {
    let (right, wrong, other) = ("(1 went 0 -9 1)", "(1 went 0 -8 1)", "(1 read 0)");
    let tape = |line: &str| format!("(1 wrote)\n{line}\n(1 wrote)\n");
    says(ALONE, &tape(right), &tape(wrong), "2 2 (1 went 0 -8 1)");
    says(ALONE, &tape(wrong), &tape(right), "2 1 (1 went 0 -8 1)");
    says(ALONE, &tape(wrong), &tape(other), "2 1 (1 went 0 -8 1)");
    says(ALONE, &tape(other), &tape(wrong), "2 1 (1 read 0)");
    // Where the algorithm has no line the first is blamed, whatever stands there.
    for (one, two) in [(right, wrong), (wrong, right), (other, right)] {
        let (first, second) = (format!("{ALONE_TAPE}{one}"), format!("{ALONE_TAPE}{two}\n"));
        says(ALONE, &first, &second, &format!("7 1 {one}"));
        says("", one, two, &format!("1 1 {one}"));
        says("(board 1 2)\n(steps 1)\n(steps (times 65537 1))", one, two, &format!("1 1 {one}"));
    }
    // Lines before it that are wrong alike do not matter, nor do later differences.
    let (first, second) = (format!("{wrong}\n{right}\n{wrong}"), format!("{wrong}\n{other}\n{right}"));
    says(ALONE, &first, &second, "2 2 (1 read 0)");
    says(ALONE, &second, &first, "2 1 (1 read 0)");
    // The line itself is compared with the algorithm's at that number, not with the one that it was meant for.
    let dropped = ALONE_TAPE.replacen("(1 wrote)\n", "", 1);
    says(ALONE, ALONE_TAPE, &dropped, "1 2 (1 went 0 -9 1)");
    says(ALONE, &dropped, ALONE_TAPE, "1 1 (1 went 0 -9 1)");
    let doubled = format!("(1 wrote)\n{ALONE_TAPE}");
    says(ALONE, ALONE_TAPE, &doubled, "2 2 (1 wrote)");
    says(ALONE, &doubled, ALONE_TAPE, "2 1 (1 wrote)");
}

/// The part is cut out of its tape: where it starts, without its LF, whether or not it has one.
#[test]
fn the_part() {
    let (sheet, first) = (ALONE.as_bytes(), ALONE_TAPE.as_bytes());
    let second = b"(1 wrote)\n(1 went 0 -9 1)\n(12 read 1)";
    let found = culprit(sheet, first, second).unwrap().unwrap();
    assert_eq!((found.number, found.tape, found.start, found.part), (3, 2, 26, &b"(12 read 1)"[..]));
    assert_eq!(found.part, &second[26..]);
    let found = culprit(sheet, second, first).unwrap().unwrap();
    assert_eq!((found.number, found.tape, found.start, found.part), (3, 1, 26, &b"(12 read 1)"[..]));
    let found = culprit(sheet, first, b"(1 read 0)\n(1 wrote)\n").unwrap().unwrap();
    assert_eq!((found.number, found.tape, found.start, found.part), (1, 2, 0, &b"(1 read 0)"[..]));
    assert_eq!(culprit(sheet, b"(1 wrote)\n\n", first), Err(Refusal::NoStepAnswer));
}
