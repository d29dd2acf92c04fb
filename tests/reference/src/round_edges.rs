//! Sheets at the edges of `(rounds k (2) () ..)` and of its refusals.

use crate::edges::Edge;
use crate::habits::{contended, rising_lines, steps_lines};
use crate::halts::Halts;

/// Three stations with the figures that a habit keeps undecided.
const THREE: &str = "(board 3 8)\n(propose 1 0)\n(propose 2 0)\n(propose 3 1)\n";

fn edge(name: &'static str, head: &str, lines: &[String]) -> Edge {
    Edge { name, sheet: format!("{head}{}\n(show)\n", lines.join("\n")).into_bytes() }
}

fn texts(lines: &[&str]) -> Vec<String> {
    lines.iter().map(|line| line.to_string()).collect()
}

pub fn edges() -> Vec<Edge> {
    let mut all =
        vec![edge("rounds spelled otherwise", THREE, &spellings()), edge("numbers of rounds", THREE, &numbers())];
    all.push(edge("the rules of a round", THREE, &rules()));
    all.push(edge("long lines of rounds", THREE, &lengths()));
    all.push(edge("rounds amid collects", THREE, &amid_collects()));
    all.push(edge("rounds of stations that are done", THREE, &done()));
    all.extend([before_a_board(), idle_stations(), habit(), sixteen(), every_step()]);
    all
}

#[rustfmt::skip]
fn spellings() -> Vec<String> {
    texts(&[
        "(rounds)", "(rounds )", "(rounds 0)", "(rounds 0 )", "(rounds  0)", "( rounds 0)", "(rounds 0", "rounds 0",
        "(rounds 0))", "((rounds 0))", "(rounds 0) ", " (rounds 0)", "(Rounds 0)", "(ROUNDS 0)", "(round 0)", "(roundss 0)",
        "(rounds 0 ())", "(rounds 0())", "(rounds 0  ())", "(rounds 0 () )", "(rounds 0 ( ))", "(rounds 0 ()())",
        "(rounds 0 () ())", "(rounds 0 ()  ())", "(rounds 0 (()))", "(rounds 0 () 1)", "(rounds 0 1)", "(rounds 0 (", "(rounds 0 ()",
        "(rounds 0 )())", "(rounds () 0)", "(rounds (0))", "(rounds (0) ())", "(rounds ())", "(rounds 1 (1))", "(rounds 1 (1 ))",
        "(rounds 1 ( 1))", "(rounds 2 (1  2))", "(rounds 2 (1 2))", "(rounds 2 (1,2))", "(rounds 2 (1\t2))", "(rounds 1 ((1)))",
        "(rounds 2 (1 (2)))", "(rounds 1 (1)(2))", "(rounds 1 (1) (2))", "(rounds 1 (1) 2)", "(rounds 1 1 (2))", "(rounds 1 (a))",
        "(rounds a (1))", "(rounds 1 (times 2 1))", "(rounds 1 (times 2 (1)))", "(rounds 1 times 2 (1))", "(times 2 (rounds 0 ()))",
        "(steps (rounds 0 ()))", "(steps ())", "(rounds 0 ())\r", "(rounds 0 ()) ; twice", "(rounds 0 ())(rounds 0 ())",
        "(rounds 0 (show))", "(rounds 0 [])", "(rounds 0 {})", "(rounds\t0)", "(rounds 0 ((((((((", "(rounds 0 (((((((((",
        "(rounds 0 (((((())))))))", "()", "(())", "(rounds0)", "(rounds 0 ().)",
    ])
}

/// Each number in the places of k and of a station.
#[rustfmt::skip]
fn numbers() -> Vec<String> {
    let mut lines = Vec::new();
    for v in ["-1", "-0", "0", "00", "1", "01", "+1", "2", "3", "4", "16", "17", "98", "99", "099", "100", "101", "254", "255", "256",
        "257", "65536", "4294967295", "4294967296", "4294967297", "18446744073709551617", "1.0", "0x1", ""] {
        lines.push(format!("(rounds {v})"));
        lines.push(format!("(rounds {v} () (3))"));
        lines.push(format!("(rounds 2 ({v}))"));
        lines.push(format!("(rounds 3 (1 {v}))"));
        lines.push(format!("(rounds 3 () ({v} 3))"));
    }
    lines
}

/// 19 in every form, alone and behind rounds that are good; "more than k" at k itself and beside it.
#[rustfmt::skip]
fn rules() -> Vec<String> {
    let mut lines = Vec::new();
    for round in ["0", "0 1", "1 0", "4", "3 4", "4 3", "99", "1 99", "1 1", "2 1", "1 3 2", "3 2 1", "1 2 2", "2 2", "1 2 3 4",
        "1 2 3 3", "0 0", "1", "3", "1 2", "1 3", "2 3", "1 2 3", ""] {
        for most in [0, 1, 2, 3, 4, 99] {
            lines.push(format!("(rounds {most} ({round}))"));
        }
        lines.push(format!("(rounds 4 () (1) ({round}))"));
        lines.push(format!("(rounds 4 ({round}) ())"));
        lines.push("(show)".to_string());
    }
    lines
}

/// 81 rounds are the most that a line holds: of 253 bytes and a byte more for each round that names a station.
fn lengths() -> Vec<String> {
    let of = |most: u8, names: usize, count: usize| {
        let rounds = (0..count).map(|at| if at < names { vec![3] } else { vec![] }).collect();
        Halts { most, rounds }.to_line()
    };
    let mut lines: Vec<String> = (80..=83).map(|count| of(0, 0, count)).collect();
    lines.extend((0..=4).flat_map(|names| [of(1, names, 81), of(10, names, 81), format!("{})", of(1, names, 81))]));
    assert!((254..=257).all(|length| lines.iter().any(|line| line.len() == length)));
    lines
}

/// 18 is asked of the board: whatever the rounds are, for each phase in which a station reads; 18 before 19.
fn amid_collects() -> Vec<String> {
    let asked =
        ["(rounds 0)", "(rounds 0 ())", "(rounds 1 (1) (1))", "(rounds 3 (1 2 3))", "(rounds 0 (1))", "(rounds 9 (0))"];
    let mut lines = Vec::new();
    for _ in 0..3 {
        for steps in ["(steps 1)", "(steps 1)", "(steps 1)", "(steps 1)"] {
            lines.push(steps.to_string());
            lines.extend(texts(&asked));
        }
        lines.push("(show)".to_string());
    }
    lines
}

/// All decide, and then rounds go on: every round is counted, and everyone who has decided.
fn done() -> Vec<String> {
    let all = "(rounds 0 () () ())";
    let more = ["(rounds 0)", "(rounds 0 ())", "(rounds 3 (1 2 3) () (2))", "(rounds 1 (1 2))", "(rounds 1 (4))"];
    let again = ["(steps 1 2 3)", "(propose 1 1)", "(rounds 0 () () () () () () () ())"];
    texts(&[&[all, "(show)", all, "(show)", all][..], &more, &again].concat())
}

fn before_a_board() -> Edge {
    let lines =
        ["(rounds 0)", "(rounds 0 (1))", "(rounds 1 (0))", "(rounds 100)", "(rounds)", "(board 17 2)", "(rounds 0)"];
    let more = ["(board 1 2)", "(rounds 0)", "(rounds 0 ())", "(rounds 1 (1))", "(rounds 1 (2))"];
    Edge { name: "rounds before a board", sheet: [&lines[..], &more].concat().join("\n").into_bytes() }
}

/// Idle stations do nothing, may be named, and join once they have proposed.
fn idle_stations() -> Edge {
    let lines = [
        "(rounds 3 () (1 2 3) (2))",
        "(show)",
        "(propose 2 -5)",
        "(rounds 1 (1) (3) ())",
        "(show)",
        "(rounds 1 (2))",
        "(propose 1 9)",
        "(rounds 1 () (2) ())",
        "(show)",
        "(propose 3 2147483647)",
        "(rounds 0 () () () () () ())",
        "(show)",
        "(rounds 1 (2))",
    ];
    edge("rounds with idle stations", "(board 3 2)\n", &texts(&lines))
}

/// The habit under which three stations never decide, beside the same single steps.
fn habit() -> Edge {
    let halts = |rounds: &[&[u8]]| Halts { most: 1, rounds: rounds.iter().map(|named| named.to_vec()).collect() };
    let (first, again) = (halts(&[&[], &[1], &[2]]), halts(&[&[3], &[1], &[], &[2]]));
    let mut lines = vec![first.to_line()];
    (0..8).for_each(|_| lines.extend([again.to_line(), "(show)".to_string()]));
    lines.extend(THREE.lines().map(str::to_string));
    lines.extend(steps_lines(&first, 3));
    (0..8).for_each(|_| lines.extend(steps_lines(&again, 3).into_iter().chain(["(show)".to_string()])));
    edge("rounds of a habit that circles", THREE, &lines)
}

/// The largest board, with half of the stations suspended in turn.
fn sixteen() -> Edge {
    let proposals: String = (1..=16).map(|i| format!("(propose {i} -21474836{})\n", 10 + i)).collect();
    let odd: Vec<u8> = (1..=16).step_by(2).collect();
    let even: Vec<u8> = (2..=16).step_by(2).collect();
    let mut lines = Vec::new();
    for rounds in
        [vec![odd.clone(), even.clone(), odd.clone()], vec![vec![]; 6], vec![even, vec![], odd], vec![vec![]; 81]]
    {
        lines.push(Halts { most: 8, rounds: rounds.clone() }.to_line());
        lines.push(Halts { most: 7, rounds }.to_line());
        lines.push("(show)".to_string());
    }
    edge("rounds of sixteen", &format!("(board 16 64)\n{proposals}"), &lines)
}

/// Every step that the largest board has: 3,264 of each station, four islands a line. All are spent, and stay so.
fn every_step() -> Edge {
    let line = Halts { most: 15, rounds: contended(16, 4).rounds }.to_line();
    let mut lines = vec![line; 17];
    lines.insert(8, "(show)".to_string());
    lines.push("(steps (times 65536 16))".to_string());
    edge("rounds of every step there is", &format!("(board 16 64)\n{}", rising_lines()), &lines)
}
