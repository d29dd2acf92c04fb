//! Sheets at the edges of `(propose (1 -40) (2 15))` and of its refusals.

use crate::edges::Edge;
use crate::habits::rising_pairs;
use crate::pair_lists;
use crate::pairs::{self, Pair};
use crate::sheet::LONGEST_LINE;

/// Three stations, of which the second has proposed.
const THREE: &str = "(board 3 2)\n(propose 2 15)\n";

fn edge(name: &'static str, head: &str, lines: &[String]) -> Edge {
    Edge { name, sheet: format!("{head}{}\n(show)\n", lines.join("\n")).into_bytes() }
}

fn texts(lines: &[&str]) -> Vec<String> {
    lines.iter().map(|line| line.to_string()).collect()
}

/// Each line on a board of its own, which is shown afterwards.
fn each_anew(name: &'static str, lines: &[String]) -> Edge {
    let all: Vec<String> =
        lines.iter().flat_map(|line| [THREE.trim_end().to_string(), line.clone(), "(show)".into()]).collect();
    edge(name, "", &all)
}

pub fn edges() -> Vec<Edge> {
    vec![
        edge("pairs spelled otherwise", THREE, &spellings()),
        each_anew("numbers of pairs", &numbers()),
        each_anew("pairs with faults", &faults()),
        edge("long lines of pairs", "(board 16 64)\n", &lengths()),
        edge("lines of pairs at their longest", "(board 16 64)\n", &longest()),
        edge("pairs among other lines", "", &among_others()),
        before_a_board(),
        sixteen(),
        any_order(),
    ]
}

/// None of them is a form but the last six.
#[rustfmt::skip]
fn spellings() -> Vec<String> {
    texts(&[
        "(propose)", "(propose )", "(propose ())", "(propose () ())", "(propose ( ))", "(propose (1))", "(propose (1 ))",
        "(propose (1 5 ))", "(propose ( 1 5))", "(propose (1  5))", "(propose  (1 5))", "(propose (1 5) )", "(propose(1 5))",
        "(propose (1 5)(3 6))", "(propose (1 5)  (3 6))", "(propose (1 5) (3 6) )", "(propose (1 5) (3 6)", "(propose (1 5)",
        "(propose (1 5", "(propose (1", "(propose (", "(propose (1 5)))", "(propose (1 5)) ", " (propose (1 5))",
        "( propose (1 5))", "((propose (1 5)))", "propose (1 5)", "(propose (1 5 6))", "(propose (1 5) (3))",
        "(propose (1 5) ())", "(propose () (1 5))", "(propose (1 5) (3 6 7))", "(propose (1) (3 6))", "(propose 1 (3 6))",
        "(propose (3 6) 1)", "(propose 1 5 (3 6))", "(propose (3 6) 1 5)", "(propose (1 5) 3 (3 6))", "(propose 1 5 3 6)",
        "(propose 1 (5))", "(propose (1) 5)", "(propose (1) (5))", "(propose 1)", "(propose ((1 5)))", "(propose ((1 5) (3 6)))",
        "(propose (1 (5)))", "(propose ((1) 5))", "(propose (1 5 (3 6)))", "(propose (1,5))", "(propose (1 5),(3 6))",
        "(propose (1\t5))", "(propose\t(1 5))", "(propose (1 5)\t(3 6))", "(Propose (1 5))", "(PROPOSE (1 5))",
        "(proposed (1 5))", "(proposes (1 5))", "(propos (1 5))", "(propose (1 5))\r", "(propose (1 5)) ; all",
        "(propose (1 5))(show)", "(propose (1 5)) (show)", "(propose (show))", "(propose (times 2 (1 5)))",
        "(propose (times 2 1 5))", "(times 2 (propose (1 5)))", "(steps (propose (1 5)))", "(steps (1 5))", "(steps (1 5) (3 6))",
        "(board (3 2))", "(propose [1 5])", "(propose {1 5})", "(propose (a 5))", "(propose (1 a))", "(propose (1 -))",
        "(propose((1 5))", "(propose)(1 5))", "(propose)(", "(propose()", "(propose)", "(propose (1 5)) (3 6))", "(propose (1 5)( 3 6))",
        "(propose (1 5) (a 6))", "(propose ((((((((1", "(propose (((((((((1", "(propose (1 5) ((((((((", "(propose ((((((()))))))",
        "(propose (0 5))", "(propose 0 5)", "(propose (1 5))", "(propose 3 6)", "(propose (1 5))", "(propose (3 6))",
    ])
}

/// Each number in the places of a station and of a figure, alone and beside a good pair.
#[rustfmt::skip]
fn numbers() -> Vec<String> {
    let mut lines = Vec::new();
    for i in ["-1", "-0", "0", "00", "1", "01", "+1", "2", "3", "4", "16", "17", "98", "99", "099", "100", "101", "255", "256",
        "257", "65537", "4294967297", "18446744073709551617", "1.0", "0x1", ""] {
        lines.push(format!("(propose ({i} 5))"));
        lines.push(format!("(propose (3 6) ({i} 5))"));
    }
    for v in ["-2147483649", "-2147483648", "-2147483647", "-1", "-0", "0", "1", "2147483646", "2147483647", "2147483648",
        "4294967295", "4294967296", "-4294967296", "9223372036854775808", "18446744073709551616", "00", "01", "-01", "+1", "--1",
        "1.0", "1e3", "0x1", ""] {
        lines.push(format!("(propose (1 {v}))"));
        lines.push(format!("(propose (1 {v}) (3 6))"));
        lines.push(format!("(propose (3 6) (1 {v}))"));
    }
    lines
}

/// Of three stations the second is not idle: every list of up to three of these stations, and longer ones.
fn faults() -> Vec<String> {
    const STATIONS: [u8; 6] = [0, 1, 2, 3, 4, 99];
    let mut lists: Vec<Vec<u8>> = STATIONS.iter().map(|one| vec![*one]).collect();
    for size in [2, 3] {
        let shorter: Vec<Vec<u8>> = lists.iter().filter(|list| list.len() == size - 1).cloned().collect();
        lists.extend(shorter.iter().flat_map(|list| STATIONS.iter().map(move |one| [&list[..], &[*one]].concat())));
    }
    lists.extend([vec![3, 1, 4, 2], vec![3, 1, 2, 4], vec![4, 2, 1, 4], vec![2, 4, 3, 1, 3], vec![1, 3, 5, 6, 7, 1]]);
    let figure = |at: usize, station: &u8| (*station, (at as i32 + 1) / 2);
    lists
        .iter()
        .map(|list| pairs::line(&list.iter().enumerate().map(|(at, s)| figure(at, s)).collect::<Vec<_>>()))
        .collect()
}

/// 41 pairs are the most that a line holds, and 36 the most different stations. Neither fits on sixteen.
fn lengths() -> Vec<String> {
    let small = |count: u8| (0..count).map(|at| (at % 10, 0)).collect::<Vec<Pair>>();
    let different = |from: u8, count: u8| (from..from + count).map(|at| (at, 1)).collect::<Vec<Pair>>();
    let mut lines: Vec<String> = (38..=43).map(|count| pairs::line(&small(count))).collect();
    lines.extend((34..=38).flat_map(|count| [different(0, count), different(1, count)].map(|all| pairs::line(&all))));
    for (count, figure) in
        [(41, 9), (41, -1), (41, 10), (40, 100_000), (40, 1_000_000), (40, 10_000_000), (40, 100_000_000)]
    {
        let mut long = small(count);
        long.iter_mut().take(1).for_each(|pair| pair.1 = figure);
        lines.push(pairs::line(&long));
    }
    assert!((254..=257).all(|length| lines.iter().any(|line| line.len() == length)), "around the longest line");
    lines
}

/// Sixteen figures in exactly 255 bytes, which is accepted, and in 256; once more, when nobody is idle.
fn longest() -> Vec<String> {
    let of_length = |length: usize| {
        let mut all: Vec<Pair> = (1..=16).rev().map(|station| (station, -21_474_836)).collect();
        let missing = length - pairs::line(&all).len();
        all.iter_mut().take(missing).for_each(|pair| pair.1 = pair.1 * 10 - 9);
        assert_eq!(pairs::line(&all).len(), length);
        pairs::line(&all)
    };
    let [short, long] = [of_length(LONGEST_LINE), of_length(LONGEST_LINE + 1)];
    vec![long.clone(), "(show)".into(), short.clone(), "(show)".into(), short, long]
}

/// Before, between and behind steps, rounds and single proposals.
#[rustfmt::skip]
fn among_others() -> Vec<String> {
    texts(&[
        "(board 4 2)", "(propose (4 -40) (2 15))", "(show)", "(propose 2 15)", "(propose (2 15))", "(steps 2 4 1 3)",
        "(propose (1 7) (4 1))", "(propose (3 7) (1 0))", "(show)", "(rounds 0 ())", "(steps (times 4 2 4))", "(rounds 0 () () ())",
        "(show)", "(propose (1 1) (2 2) (3 3) (4 4))", "(propose (5 1) (5 1))", "(propose (1 1) (5 5))", "(propose (5 5) (1 1))",
        "(rounds 0 () () ())", "(show)", "(propose (1 1))", "(board 1 2)", "(propose (1 1))", "(steps (times 6 1))",
        "(propose (1 1))", "(show)", "(board 3 2)", "(propose (1 7) (2 3))",
        "(steps (times 2 (times 4 2) (times 4 1) (times 4 2) (times 8 1) (times 4 2)))",
        "(show)", "(propose (2 1))", "(propose (4 1) (2 1))", "(propose (2 1) (4 1))", "(propose (3 1) (2 1))",
    ])
}

/// 4 and 5 come before 20, and 20 before 12 and 13.
fn before_a_board() -> Edge {
    let lines = [
        "(propose (1 5))",
        "(propose (1 5) (1 5))",
        "(propose (0 5) (0 5))",
        "(propose (100 5))",
        "(board 17 2)",
        "(propose (1 5))",
    ];
    let more =
        ["(board 1 2)", "(propose (1 5) (1 5))", "(propose (0 1) (0 1))", "(propose (17 1) (17 2))", "(propose (1 5))"];
    Edge { name: "pairs before a board", sheet: [&lines[..], &more, &["(show)"]].concat().join("\n").into_bytes() }
}

/// The largest board at a shift's start, the longest figures in two lines and the others in one; then all settle.
fn sixteen() -> Edge {
    let settle = "(rounds 0 () () () () () ())\n(show)\n";
    let long = pair_lists::lines(&rising_pairs()).join("\n");
    let short = pairs::line(&(1..=16).map(|station| (station, 5 - station as i32)).collect::<Vec<_>>());
    let sheet = format!("(board 16 64)\n{long}\n(show)\n{settle}(board 16 64)\n{short}\n(show)\n{settle}");
    Edge { name: "pairs of sixteen", sheet: sheet.into_bytes() }
}

/// Every order of four pairs, beside single proposals.
fn any_order() -> Edge {
    let figures = [(1, 7), (2, -7), (3, i32::MIN), (4, 0)];
    let mut lines = Vec::new();
    for at in 0..24 {
        let mut left = figures.to_vec();
        let order: Vec<Pair> = [at / 6, at / 2 % 3, at % 2, 0].iter().map(|place| left.remove(*place)).collect();
        let single = order.iter().rev().map(|(station, figure)| format!("(propose {station} {figure})"));
        let rest = ["(show)", "(steps 1 2 3 4 (times 4 1 2 3 4))", "(show)"].map(str::to_string);
        lines.push("(board 4 2)".to_string());
        lines.push(pairs::line(&order));
        lines.extend(rest.clone());
        lines.push("(board 4 2)".to_string());
        lines.extend(single.chain(rest));
    }
    edge("pairs in any order", "", &lines)
}

/// Of a sheet that is too long nothing is played.
#[test]
fn sheets_are_played() {
    for edge in edges() {
        assert!(edge.sheet.len() <= crate::sheet::LONGEST_SHEET, "{}: {}", edge.name, edge.sheet.len());
    }
}

#[test]
fn few_spellings_are_forms() {
    let answers: Vec<u8> = crate::sheet::play(format!("{THREE}{}\n", spellings().join("\n")).as_bytes());
    let text = String::from_utf8(answers).unwrap();
    let others: Vec<&str> =
        text.lines().skip(2).filter(|line| !["(refused 3)", "(refused 4)"].contains(line)).collect();
    let last = ["(refused 12)", "(refused 12)", "(proposed 1)", "(proposed 3 6)", "(refused 13)", "(refused 13)"];
    assert_eq!(others, last);
}
