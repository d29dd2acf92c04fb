//! Lines of a tape at the edges of what a step may answer, and sheets at the edges of what their own tape holds.

use crate::edges::Edge;
use crate::figure::EDGES;
use crate::habits::{contended, rising_pairs};
use crate::halts::Halts;
use crate::pairs;
use crate::sheet::LONGEST_LINE;

/// A line of each kind, with numbers of one digit and of more.
pub const SAMPLES: [&str; 9] = [
    "(1 wrote)",
    "(2 read 0)",
    "(16 read 1)",
    "(3 went 1 -40 2)",
    "(1 marked 2 15 1)",
    "(2 marked 1 -2147483648 16)",
    "(1 adopted 63 7 3)",
    "(12 decided 0 2147483647 12)",
    "(9 spent 10 -10 9)",
];

/// Numbers at the ends of every range, as they may be written and as they may not.
#[rustfmt::skip]
const NUMBERS: [&str; 49] = [
    "", "-", "+", "-0", "+0", "00", "01", "+1", "-1", "-01", "--1", "1-", "1.0", "1e1", "0x1", "1_0", "a", "7", "8",
    "9", "10", "010", "15", "16", "17", "63", "64", "65", "98", "99", "099", "100", "101", "127", "128", "199",
    "255", "256", "257", "512", "999", "1000", "65535", "65536", "65537", "4294967296", "4294967297",
    "18446744073709551616", "18446744073709551617",
];

#[rustfmt::skip]
const FIGURES: [&str; 22] = [
    "2147483648", "-2147483649", "2147483650", "2147483657", "3000000000", "-3000000000", "4294967295", "4294967301",
    "-4294967296", "9223372036854775807", "9223372036854775808", "-9223372036854775808", "-9223372036854775809",
    "18446744073709551615", "-18446744073709551616", "02147483647", "-02147483648", "21474836470", "-21474836480",
    "9999999999", "10000000000", "340282366920938463463374607431768211456",
];

/// Lines that are none, or nearly one.
#[rustfmt::skip]
const SPELLINGS: [&str; 88] = [
    "", " ", "  ", "\r", "\t", "\0", "(", ")", "()", "( )", "(())", "((", "))", ")(", "wrote", "1 wrote", "(1 wrote",
    "1 wrote)", "(wrote)", "(1)", "(1 )", "( wrote)", "(1 wrote )", "( 1 wrote)", "(1  wrote)", "(1 wrote) ",
    " (1 wrote)", "(1 wrote)\r", "\r(1 wrote)", "(1 wrote)\t", "(1\twrote)", "(1 wrote)\0", "(1 wrote))",
    "((1 wrote)", "((1 wrote))", "(1 wrote)(1 wrote)", "(1 wrote) (1 wrote)", "(1 (wrote))", "((1) wrote)",
    "[1 wrote]", "{1 wrote}", "(1,wrote)", "(1 wrote;)", "(1 Wrote)", "(1 WROTE)", "(1 wrot)", "(1 wrotes)",
    "(1 write)", "(1 wrote 0)", "(1 wrote 1)", "(1 wrote 0 5 1)", "(1 wrote ())", "(wrote 1)", "(1 2 wrote)",
    "(1 read)", "(1 read )", "(1 read 1 )", "(1 read  1)", "(1 read 0 0)", "(1 read 0 5 1)", "(1 read (1))",
    "(1 reads 1)", "(1 rea 1)", "(1 Read 1)", "(1 read\t1)", "(1 refused 14)", "(1 refused 12)", "(1 refused)",
    "(refused 14)", "(1 idle)", "(1 going 0 5)", "(1 proposed 5)", "(1 decided 0 5)", "(1 spent 0 5)", "(1 ran 1 0)",
    "(1 played 0 0 0)", "(1 laid 0 5 1)", "(1 halted 0 5 1)", "(1 moved 0 5 1)", "(1 commit 0 5 1)",
    "(1 wrote) ; so", "; none", "# none", "(show)", "(steps 1)", "(stations (1 idle))", "\u{feff}(1 wrote)", "none",
];

/// Every text of a line that is tried for itself.
pub fn texts() -> Vec<Vec<u8>> {
    let mut all: Vec<String> = SPELLINGS.iter().chain(&SAMPLES).map(|line| line.to_string()).collect();
    let small = (0..=110u32).map(|number| number.to_string()).chain(NUMBERS.iter().map(|text| text.to_string()));
    for number in small {
        all.extend(["wrote", "read 1", "spent 1 5 2"].map(|rest| format!("({number} {rest})")));
        all.push(format!("(1 read {number})"));
        all.push(format!("(1 marked {number} 5 1)"));
        for kind in ["went", "adopted", "decided", "spent"] {
            all.push(format!("(1 {kind} {number} 5 1)"));
            all.push(format!("(1 {kind} 0 5 {number})"));
        }
        all.push(format!("(1 marked 1 5 {number})"));
        all.push(format!("(1 went 0 {number} 1)"));
    }
    let figures = EDGES.iter().map(i32::to_string).chain(FIGURES.iter().map(|text| text.to_string()));
    for figure in figures {
        all.extend(FIVE.map(|kind| format!("(1 {kind} 1 {figure} 1)")));
    }
    all.extend(FIVE.iter().flat_map(|kind| bent(kind)));
    let mut all: Vec<Vec<u8>> = all.into_iter().map(String::into_bytes).collect();
    all.extend(long_texts());
    all
}

/// Kinds with an island or a flag, a figure and a total.
const FIVE: [&str; 5] = ["went", "marked", "adopted", "decided", "spent"];

/// Fields too few and too many, in other orders, with other spaces and brackets.
#[rustfmt::skip]
fn bent(kind: &str) -> Vec<String> {
    let fields = [
        "", " ", " 1", " 1 5", " 1 5 ", " 1 5 1 ", " 1 5 1 1", " 1 5 1 ()", "  1 5 1", " 1  5 1", " 1 5  1",
        " 1 -5 1", " -5 1 1", " 1 1 -5", " 2 1 5 1", " (1 5 1)", " 1 (5) 1", " 1 5 (1)", "(1 5 1)", " 1 5,1",
        " 1\t5 1", " 1 5 1\r", " 1 - 5 1", " 1 -- 1", " x 5 1", " 1 x 1", " 1 5 x", " commit 5 1", " 1 5 1) ",
        " 1 5 1))", " 1 5 1)(",
    ];
    let mut all: Vec<String> = fields.iter().map(|rest| format!("(1 {kind}{rest})")).collect();
    let words = [&kind[1..], &kind[..kind.len() - 1], &format!("{kind}s"), &kind.to_uppercase()];
    all.extend(words.map(|word| format!("(1 {word} 1 5 1)")));
    all.extend([format!("({kind} 1 1 5 1)"), format!("(1 1 {kind} 5 1)")]);
    all.extend([format!("(1 {kind} 1 5 1"), format!("1 {kind} 1 5 1)")]);
    all
}

/// Lines far longer than any answer, some of which a number that wraps would take for one.
fn long_texts() -> Vec<Vec<u8>> {
    let many = |text: &str, count: usize| text.repeat(count);
    let mut all = vec![many("(", 300), many(")", 300), many(" ", 300), many("(1 wrote)", 300), many("1", 100_000)];
    for count in [1, 8, 18, 300, 70_000] {
        let zeros = many("0", count);
        all.extend([format!("({zeros}1 wrote)"), format!("(1{zeros} wrote)"), format!("(1 read {zeros}1)")]);
        all.extend([
            format!("(1 went 1 1{zeros} 1)"),
            format!("(1 went 1 -{zeros} 1)"),
            format!("(1 went {zeros} 5 1)"),
        ]);
        all.extend([format!("(1 wrote{})", many(" ", count)), format!("({}1 wrote)", many(" ", count))]);
        all.push(format!("(1 wrote{})", many(" 1", count)));
    }
    all.into_iter().map(String::into_bytes).collect()
}

/// Lines of rounds, each as long as it may be.
fn round_lines(halts: &Halts) -> String {
    let mut lines = vec![Halts { most: halts.most, rounds: vec![] }];
    for named in &halts.rounds {
        let last = lines.last_mut().expect("one at least");
        last.rounds.push(named.clone());
        if last.to_line().len() > LONGEST_LINE {
            last.rounds.pop();
            lines.push(Halts { most: halts.most, rounds: vec![named.clone()] });
        }
    }
    lines.iter().map(|line| format!("{}\n", line.to_line())).collect()
}

/// Every step that the largest board has, on one board after the other: 52,224 lines each.
pub fn far_sheet(boards: usize) -> Vec<u8> {
    let pairs: String = rising_pairs().chunks(8).map(|some| format!("{}\n", pairs::line(some))).collect();
    format!("(board 16 64)\n{pairs}{}", round_lines(&contended(16, 64))).repeat(boards).into_bytes()
}

/// The document's second run by two of three stations, of which the tape has every kind but *decided*.
pub const CIRCLING: &str = "(board 3 2)\n(propose 1 7)\n(propose 2 3)\n\
                            (steps (times 2 (times 4 2) (times 4 1) (times 4 2) (times 8 1) (times 4 2)))\n";

pub const ALONE: &str = "(board 1 2)\n(propose 1 -9)\n(steps (times 6 1))\n";

/// Three stations, of which two have proposed.
const HEAD: &str = "(board 3 3)\n(propose (1 7) (2 -3))\n";

/// Lines behind that head.
const BEHIND_HEAD: [(&str, &[&str]); 13] = [
    ("layings refused", &["(board 0 2)", "(steps 1)", "(board 17 2)", "(steps 2)", "(board 3 1)", "(steps 1)"]),
    ("layings of two stations", &["(board 2 2)", "(steps 1)", "(board 2 1)", "(propose 3 1)", "(steps 3 1 2)"]),
    ("proposals refused", &["(propose 1 1)", "(propose 4 3)", "(propose (2 1) (2 1))", "(steps (times 12 1 2))"]),
    ("steps refused", &["(steps 0 1 4 2 99 1)", "(steps (times 50 1 2 0 3 4))", "(steps 1 2)"]),
    ("too many steps", &["(steps 1)", "(steps (times 65537 1))", "(steps 2 (times 65536 1))", "(steps 2)"]),
    ("as many as a line may have", &["(steps (times 32768 1 2))"]),
    ("nested", &["(steps (times 3 2 (times 2 1)) (times 2 1))", "(steps (times 2 (times 1 (times 3 1 (times 2 2)))))"]),
    ("too deep", &["(steps (times 1 (times 1 (times 1 (times 1 (times 1 (times 1 (times 1 (times 1 1", "(steps 2)"]),
    ("rounds", &["(rounds 1 (1) () (2) ())", "(rounds 2 (1 2))", "(rounds 0)", "(rounds 0 () () ())"]),
    ("rounds amid collects", &["(steps 1)", "(rounds 0 ())", "(rounds 1 (1))", "(steps 1 1 1)", "(rounds 0 ())"]),
    (
        "rounds refused",
        &["(rounds 0 () (1))", "(rounds 2 () (2 1))", "(rounds 1 () (4))", "(rounds 1 (0))", "(steps 1)"],
    ),
    (
        "no line that is a form",
        &["(steps 1) ", "(steps 1)\r", " (steps 1)", "(Steps 1)", "(steps 01)", "", "(steps 2)"],
    ),
    ("no LF at the end", &["(show)", "(steps 1)", "(show)", "(steps 2 2)"]),
];

/// Sheets whose own tape a wrong reader of sheets would have otherwise.
pub fn sheets() -> Vec<Edge> {
    let edge = |name, text: String| Edge { name, sheet: text.into_bytes() };
    let (most, more) = (format!("(steps{})", " 1".repeat(124)), format!("(steps{} 10)", " 1".repeat(123)));
    let pairs = "(propose (1 1) (4 1))\n(steps 1 2)\n(propose 2 5)\n(steps 1 2)\n(propose (3 2) (2 1))\n(steps 3)";
    let five = "(board 5 2)\n(propose (1 1) (2 -1) (3 2) (4 0) (5 -2))\n(steps (times 9 5 4 3 2 1))\n(rounds 0 ())";
    let mut all = vec![
        edge("no line", String::new()),
        edge("no board", "(steps 1)\n(rounds 0 ())\n(propose 1 5)\n(steps 1)".into()),
        edge("no step", "(board 3 2)\n(propose 1 5)\n(show)".into()),
        edge("one station alone", ALONE.into()),
        edge("circling", CIRCLING.into()),
        edge("the same board twice", CIRCLING.repeat(2)),
        edge("a board laid anew amid its steps", format!("{HEAD}(steps 1 2 1)\n{HEAD}(steps 1 2 1)\n{ALONE}")),
        edge("half a list of pairs", format!("(board 3 2)\n{pairs}")),
        edge("a line of 256 bytes, and one of 255", format!("{HEAD}{more}\n(steps 2)\n{most}\n(steps 2)")),
        edge("five stations", format!("{five}\n(steps (times 70 1 2 3 4 5))\n{ALONE}")),
    ];
    all.extend(BEHIND_HEAD.iter().map(|(name, lines)| edge(name, format!("{HEAD}{}", lines.join("\n")))));
    all
}

#[test]
fn lines_at_the_limit() {
    let sheets = sheets();
    let sheet = sheets.iter().find(|edge| edge.name.contains("255")).expect("it is there");
    let lengths: Vec<usize> = crate::sheet::lines(&sheet.sheet).iter().map(|line| line.len()).collect();
    assert_eq!(lengths[2..], [256, 9, 255, 9]);
    let far = far_sheet(2);
    assert!(far.len() <= crate::sheet::LONGEST_SHEET);
    assert_eq!(crate::tapes::own(&far, usize::MAX).len(), 2 * 52_224);
}
