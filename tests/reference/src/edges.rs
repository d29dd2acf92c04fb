//! Sheets that stand at the edges which the document names, each with a name.

use crate::tape_edges::CIRCLING;
use crate::{order_edges, pair_edges, round_edges, two_edges};

pub struct Edge {
    pub name: &'static str,
    pub sheet: Vec<u8>,
}

const HEAD: &str = "(board 3 2)\n(propose 1 -40)\n(propose 2 15)\n";

fn nested(times: usize) -> String {
    format!("(steps {}1{}", "(times 1 ".repeat(times), ")".repeat(times + 1))
}

/// A `steps` line of exactly this many bytes.
fn steps_of_length(length: usize) -> String {
    let mut line = String::from("(steps");
    while line.len() + 3 <= length {
        line.push_str(" 1");
    }
    line.push_str(&"0".repeat(length - 1 - line.len()));
    line.push(')');
    assert_eq!(line.len(), length);
    line
}

/// A sheet of exactly this many bytes whose lines are all short.
fn sheet_of_length(length: usize, line: &str) -> Vec<u8> {
    let mut out = b"(board 3 2)\n".to_vec();
    while out.len() + line.len() < length {
        out.extend(line.bytes());
        out.push(b'\n');
    }
    out.resize(length, b' ');
    out
}

/// Every line after a board of three stations, of which two have proposed.
fn after_head(lines: &[String]) -> Vec<u8> {
    format!("{HEAD}{}\n(show)\n", lines.join("\n")).into_bytes()
}

fn texts(lines: &[&str]) -> Vec<String> {
    lines.iter().map(|l| l.to_string()).collect()
}

pub fn edges() -> Vec<Edge> {
    let mut all = vec![
        Edge { name: "empty sheet", sheet: vec![] },
        Edge { name: "one empty line", sheet: b"\n".to_vec() },
        Edge { name: "two empty lines", sheet: b"\n\n".to_vec() },
        Edge { name: "one space", sheet: b" ".to_vec() },
        Edge { name: "no final LF", sheet: format!("{HEAD}(steps 1 2)\n(show)").into_bytes() },
        Edge { name: "final LF", sheet: format!("{HEAD}(steps 1 2)\n(show)\n").into_bytes() },
        Edge { name: "final empty line", sheet: format!("{HEAD}(steps 1 2)\n(show)\n\n").into_bytes() },
        Edge { name: "final CR", sheet: format!("{HEAD}(show)\r\n(show)\r").into_bytes() },
    ];
    all.extend(before_a_board());
    all.extend(lengths());
    all.extend(depths());
    all.extend(step_counts());
    all.extend(ranges());
    all.extend(spellings());
    all.extend(bytes());
    all.extend(starred());
    all.extend(round_edges::edges());
    all.extend(order_edges::edges());
    all.extend(pair_edges::edges());
    all.extend(two_edges::edges());
    all
}

#[rustfmt::skip]
fn before_a_board() -> Vec<Edge> {
    let lines = [
        "(show)", "(propose 1 1)", "(steps)", "(steps 1)", "(steps (times 65537 1))", "(board 0 2)", "(board 17 2)",
        "(board 1 1)", "(board 1 65)", "(board 100 2)", "(propose 100 1)", "(show)", "(board 1 2)", "(show)",
        "(board 17 2)", "(show)", "(propose 1 4)", "(board 2 1)", "(show)", "(steps (times 6 1))", "(board 2 99)",
        "(show)", "(board 3 1)", "(board 3 99)", "(show)", "(board 2 2)", "(show)", "(board 3 2)", "(show)",
    ];
    vec![Edge { name: "before a board", sheet: lines.join("\n").into_bytes() }]
}

fn lengths() -> Vec<Edge> {
    let lines: Vec<String> = (250..=258).map(steps_of_length).collect();
    let spaces: Vec<String> = (254..=257).map(|count| " ".repeat(count)).collect();
    let brackets: Vec<String> = (254..=257).map(|count| "(".repeat(count)).collect();
    let mut out = vec![
        Edge { name: "lines of 250 to 258 bytes", sheet: after_head(&lines) },
        Edge { name: "spaces around 255 bytes", sheet: after_head(&spaces) },
        Edge { name: "brackets around 255 bytes", sheet: after_head(&brackets) },
        Edge { name: "last line of 255, no LF", sheet: format!("{HEAD}{}", steps_of_length(255)).into_bytes() },
        Edge { name: "last line of 256, no LF", sheet: format!("{HEAD}{}", steps_of_length(256)).into_bytes() },
    ];
    for length in [32_767, 32_768, 32_769, 32_770, 65_535, 65_536, 65_537, 70_000, 1_000_000] {
        out.push(Edge { name: "sheet length", sheet: sheet_of_length(length, "(steps 1 2)") });
        out.push(Edge { name: "sheet length, shows", sheet: sheet_of_length(length, "(show)") });
        out.push(Edge { name: "sheet length, one line", sheet: vec![b' '; length] });
        out.push(Edge { name: "sheet length, empty lines", sheet: vec![b'\n'; length] });
    }
    out
}

fn depths() -> Vec<Edge> {
    let mut lines: Vec<String> = (0..=12).map(nested).collect();
    for count in 0..=12 {
        lines.push("(".repeat(count));
        lines.push(")".repeat(count));
        lines.push(format!("(show){}", "(".repeat(count)));
        lines.push(format!("){}", "(".repeat(count)));
        lines.push(format!(")){}", "(".repeat(count)));
        lines.push(format!("{}{}", "(".repeat(count), ")".repeat(count)));
        lines.push(format!("()(){}", "(".repeat(count)));
        lines.push(format!("(steps 1 {}", "(times 2 1 ".repeat(count)));
    }
    vec![Edge { name: "depths", sheet: after_head(&lines) }]
}

#[rustfmt::skip]
fn step_counts() -> Vec<Edge> {
    let lines = texts(&[
        "(steps (times 65535 1))", "(steps (times 65536 1))", "(steps (times 65537 1))", "(steps (times 65536 1) 2)",
        "(steps 2 (times 65535 1))", "(steps (times 256 (times 256 9)))", "(steps (times 256 (times 256 9)) 0)",
        "(steps (times 2 (times 32768 9)))", "(steps (times 2 (times 32768 9) 1))", "(steps (times 99999 9))",
        "(steps (times 1 (times 99999 9)))", "(steps (times 99999 (times 99999 1)))", "(steps (times 65536 (times 65536 1)))",
        "(steps (times 65536 (times 65536 (times 65536 (times 65536 1)))))",
        "(steps (times 99999 (times 99999 (times 99999 (times 99999 (times 99999 (times 99999 (times 99999 1))))))))",
        "(steps (times 8192 1 2 3 4 5 6 7 8))", "(steps (times 8192 1 2 3 4 5 6 7 8) 1)",
        "(steps (times 16384 (times 99999 1)) (times 1 2))", "(steps)", "(steps 3)", "(steps 0)", "(steps 99)",
    ]);
    let wide = format!("(board 16 64)\n{}(steps (times 4096 1 2 3 4 5 6 7 8 9 10 11 12 13 14 15 16))\n(show)\n", proposals());
    vec![
        Edge { name: "step counts", sheet: after_head(&lines) },
        Edge { name: "65,536 steps of sixteen", sheet: wide.into_bytes() },
    ]
}

fn proposals() -> String {
    (1..=16).map(|i| format!("(propose {i} -21474836{})\n", 10 + i)).collect()
}

#[rustfmt::skip]
fn ranges() -> Vec<Edge> {
    let mut boards = Vec::new();
    for n in [0, 1, 2, 3, 15, 16, 17, 98, 99, 100, 255, 256, 257] {
        for k in [0, 1, 2, 63, 64, 65, 98, 99, 100, 255, 256, 258] {
            boards.push(format!("(board {n} {k})\n(show)"));
        }
    }
    let mut figures = Vec::new();
    for v in ["-2147483649", "-2147483648", "-2147483647", "-1", "-0", "0", "1", "2147483646", "2147483647",
        "2147483648", "4294967295", "4294967296", "-4294967296", "9223372036854775807", "9223372036854775808",
        "-9223372036854775809", "18446744073709551616", "00", "01", "-01", "+1", "1.0", "1e3", "0x1"] {
        figures.push(format!("(board 3 2)\n(propose 1 {v})\n(show)\n(propose 1 {v})\n(steps (times 11 1))\n(show)"));
    }
    let mut numbers = Vec::new();
    for v in ["-1", "-0", "0", "00", "1", "01", "2", "3", "4", "16", "17", "98", "99", "100", "256", "257", "99998",
        "99999", "100000", "4294967297", "18446744073709551617", "+1", ""] {
        numbers.push(format!("(propose {v} 1)"));
        numbers.push(format!("(steps {v})"));
        numbers.push(format!("(steps 1 {v} 2)"));
        numbers.push(format!("(steps (times {v} 3))"));
        numbers.push(format!("(steps (times 2 {v}))"));
    }
    vec![
        Edge { name: "boards at their ends", sheet: boards.join("\n").into_bytes() },
        Edge { name: "figures at their ends", sheet: figures.join("\n").into_bytes() },
        Edge { name: "numbers at their ends", sheet: after_head(&numbers) },
    ]
}

#[rustfmt::skip]
fn spellings() -> Vec<Edge> {
    let lines = texts(&[
        "()", "(())", "(", ")", "(show", "show", "show)", "(show))", "((show))", "(show )", "( show)", " (show)", "(show) ",
        "(show)(show)", "(show) (show)", "(Show)", "(SHOW)", "(shows)", "(sho)", "(show 1)", "(steps )", "( steps)",
        "(steps 1 )", "(steps  1)", "(steps 1  2)", "(steps(times 2 1))", "(steps 1(times 2 1))", "(steps (times 2 1)1)",
        "(steps (times 2 1) )", "(steps ())", "(steps (1))", "(steps (times))", "(steps (times 2))", "(steps (times 0 1))",
        "(steps (times 2 ))", "(steps (times  2 1))", "(steps (times 2 1 ))", "(steps ( times 2 1))", "(times 2 1)",
        "(steps times 2 1)", "(steps (tines 2 1))", "(steps (timess 2 1))", "(steps (times -1 1))", "(steps (times 1 -1))",
        "(steps (times (times 1 1) 1))", "(steps (steps 1))", "(steps (show))", "(steps 1,2)", "(steps 1\t2)", "(steps\t1)",
        "(propose)", "(propose 1)", "(propose 3)", "(propose 3 )", "(propose  3 1)", "(propose 3  1)", "(propose 3 1 1)",
        "(propose 3 1 )", "(propose (3) 1)", "(propose 3 (1))", "(propose 3 a)", "(propose a 3)", "(propose 0 1)",
        "(propose 4 1)", "(propose 1 1)", "(propose 3 1)", "(propose 3 1)", "(board)", "(board 3)", "(board 3 )",
        "(board 3 2 )", "(board 3 2 2)", "(board  3 2)", "(board (3) 2)", "(board -1 2)", "(board 3 -2)", "(board 03 2)",
        "(board 3 02)", "(board 3 +2)", "board 3 2", "(board 3 2", "(board 3 2))", "; comment", "# comment", "(;)", "\"\"",
    ]);
    vec![Edge { name: "spellings", sheet: after_head(&lines) }]
}

/// Every byte but LF put into the places of a form.
#[rustfmt::skip]
fn bytes() -> Vec<Edge> {
    let mut out = Vec::new();
    for pattern in [["", ""], ["(", "show)"], ["(show", ")"], ["(show)", ""], ["", "(show)"], ["(steps", "1)"],
        ["(steps ", ")"], ["(steps 1", ")"], ["(steps (times 2", "1))"], ["(propose 3 ", "1)"], ["(board 3 ", ")"],
        ["(board ", " 2)"],
        ["(rounds", "1)"], ["(rounds ", ")"], ["(rounds 1", "(1))"], ["(rounds 1 (", "))"], ["(rounds 2 (1", "2))"],
        ["(rounds 1 (1)", "(2))"], ["(rounds 1 ()", ")"], ["(propose", "(3 1))"], ["(propose (3", "1))"],
        ["(propose (3 1", "))"], ["(propose (", "1))"], ["(propose (3 ", "1))"], ["(propose (3 1)", "(4 5))"],
        ["(propose (3 1)", ")"], ["(propose ", "(3 1))"]] {
        let mut sheet = HEAD.as_bytes().to_vec();
        for byte in (0..=255u8).filter(|b| *b != b'\n') {
            sheet.extend(pattern[0].bytes());
            sheet.push(byte);
            sheet.extend(pattern[1].bytes());
            sheet.push(b'\n');
        }
        out.push(Edge { name: "every byte", sheet });
    }
    out
}

fn starred() -> Vec<Edge> {
    let equal = "(board 3 2)\n(propose 1 5)\n(propose 2 5)\n(propose 3 5)\n(steps (times 12 1 2 3))\n(show)\n";
    let longest = format!(
        "(board 16 64)\n{}(steps (times 300 1 2 3 4 5 6 7 8 9 10 11 12 13 14 15 16))\n{}",
        proposals(),
        "(show)\n".repeat(4_000)
    );
    let first = format!("{HEAD}(steps (times 12 1))\n(show)\n(steps (times 24 2))\n(show)\n(steps 1 2 3 4)\n");
    vec![
        Edge { name: "the document's first sheet", sheet: first.into_bytes() },
        Edge { name: "circling", sheet: format!("{CIRCLING}(show)\n(steps 1 2 3)\n").into_bytes() },
        Edge { name: "equal figures", sheet: equal.into() },
        Edge { name: "far more output than input", sheet: longest.into_bytes() },
    ]
}
