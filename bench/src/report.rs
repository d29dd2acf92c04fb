//! The tables of `bench/run`, from what it wrote down: counts, times, sheets, tapes and stack, in fields with tabs between them.

use crate::measure::ENGINES;
use crate::work::{contended, LONGEST_RUN, MOST_ROUNDS, SIZES};
use std::collections::BTreeMap;

/// By engine, n, K and what was measured.
type Numbers = BTreeMap<(String, u8, u8, String), f64>;

fn rows(folder: &str, name: &str) -> Vec<Vec<String>> {
    let text = std::fs::read_to_string(format!("{folder}/{name}")).unwrap_or_default();
    text.lines().map(|line| line.split('\t').map(str::to_string).collect()).collect()
}

fn numbers(folder: &str, name: &str) -> Numbers {
    let number = |text: &String| text.parse::<f64>().expect("a number");
    let byte = |text: &String| text.parse::<u8>().expect("a small number");
    rows(folder, name).iter().map(|r| ((r[0].clone(), byte(&r[1]), byte(&r[2]), r[3].clone()), number(&r[4]))).collect()
}

/// What a column shows, worked out from what was measured.
enum Column {
    /// A call.
    Whole(&'static str),
    /// A run less the same run of no station, for each step of it.
    Each(&'static str),
    /// The same for the longest list of which every step is taken.
    EachTaken(&'static str),
    /// Rounds less the same call with no round, for each of them.
    EachRound(&'static str),
    /// The figures of all stations less the same call with no figure, for each of them.
    EachPair(&'static str),
}

const COLUMNS: [(&str, Column); 10] = [
    ("step taken in a run", Column::EachTaken("taken")),
    ("step refused in a run", Column::Each("refused")),
    ("run of 65,536", Column::Whole("run")),
    ("round of stations that are done", Column::EachRound("done")),
    ("first single step", Column::Whole("first step")),
    ("single step midway", Column::Whole("middle step")),
    ("laying", Column::Whole("lay")),
    ("showing", Column::Whole("show")),
    ("soundness", Column::Whole("check")),
    ("soundness amid collects", Column::Whole("check amid")),
];

fn raw(all: &Numbers, engine: &str, n: u8, k: u8, what: &str) -> Option<f64> {
    all.get(&(engine.to_string(), n, k, what.to_string())).copied()
}

impl Column {
    fn value(&self, all: &Numbers, engine: &str, n: u8, k: u8) -> Option<f64> {
        let raw = |what: &str| raw(all, engine, n, k, what);
        let each = |what: &str, steps: usize| Some((raw(what)? - raw(&format!("{what}, none"))?) / steps as f64);
        match self {
            Column::Whole(what) => Some(raw(what)? - raw("nothing")?),
            Column::Each(what) => each(what, LONGEST_RUN),
            Column::EachTaken(what) => each(what, contended(n, k).len()),
            Column::EachRound(what) => each(what, MOST_ROUNDS),
            Column::EachPair(what) => each(what, n as usize),
        }
    }
}

/// A whole number with commas, or one digit behind the point below a thousand.
fn told(x: f64) -> String {
    if x < 1000.0 {
        return format!("{:.1}", x).trim_end_matches(".0").to_string();
    }
    let digits = format!("{x:.0}");
    let mut out = String::new();
    for (at, digit) in digits.chars().enumerate() {
        if at > 0 && (digits.len() - at) % 3 == 0 {
            out.push(',');
        }
        out.push(digit);
    }
    out
}

/// Ours, and behind it ours over each of the others.
fn cell(all: &Numbers, column: &Column, n: u8, k: u8) -> String {
    let [Some(ours), Some(direct), Some(values)] = ENGINES.map(|engine| column.value(all, engine, n, k)) else {
        return "–".to_string();
    };
    format!("{} ({:.2}, {:.2})", told(ours), ours / direct, ours / values)
}

fn table(title: &str, all: &Numbers) {
    println!("\n{title}\n");
    println!("| n, K |{}", COLUMNS.map(|(name, _)| format!(" {name} |")).concat());
    println!("|---|{}", "---|".repeat(COLUMNS.len()));
    for (n, k) in SIZES {
        println!("| {n}, {k} |{}", COLUMNS.map(|(_, column)| format!(" {} |", cell(all, &column, n, k))).concat());
    }
}

/// The least and the most over every n and K. Of values there is none: where its memory comes from differs from call to
/// call, and that outweighs a step.
fn span(all: &Numbers, engine: &str, what: &str) -> String {
    let of = |n, k| {
        let raw = |what: &str| all.get(&(engine.to_string(), n, k, what.to_string()));
        Some(raw(what)? - raw(&format!("{what}, none"))?)
    };
    let found: Vec<f64> = SIZES.iter().filter_map(|(n, k)| of(*n, *k)).collect();
    let (least, most) = (found.iter().copied().fold(f64::MAX, f64::min), found.iter().copied().fold(0.0, f64::max));
    if least == most {
        told(least)
    } else {
        format!("{} to {}", told(least), told(most))
    }
}

fn kinds(all: &Numbers) {
    const KINDS: [&str; 4] = ["write", "read own", "read empty", "last read"];
    println!("\nInstructions of one step in a run, by kind, over all nine sizes, ours / direct:\n");
    println!("| array |{}\n|---|---|---|---|---|", KINDS.map(|kind| format!(" {kind} |")).concat());
    for array in ["m", "A", "B"] {
        let cells = KINDS.map(|kind| {
            let what = format!("{kind} {array}");
            format!(" {} / {} |", span(all, "ours", &what), span(all, "direct", &what))
        });
        println!("| {array} |{}", cells.concat());
    }
}

/// Lines of rounds beside lines of the same single steps. Of direct there is none: it plays no lines of its own.
fn lines(all: &Numbers) {
    const PAIRS: [(&str, u8, u8); 2] = [("settling", 16, 64), ("circling", 3, 64)];
    println!("\nInstructions of a line of rounds and of a line of the same steps:\n");
    println!("| line | n, K | rounds | steps | rounds over steps | values' |\n|{}", "---|".repeat(6));
    for (name, n, k) in PAIRS {
        let of = |engine, form| {
            Some(raw(all, engine, n, k, &format!("{name}, {form}"))? - raw(all, engine, n, k, "nothing")?)
        };
        let pair = |engine| Some((of(engine, "rounds")?, of(engine, "steps")?));
        let (Some((rounds, steps)), Some(values)) = (pair("ours"), pair("values")) else { continue };
        let (ratio, theirs) = (rounds / steps, values.0 / values.1);
        println!("| {name} | {n}, {k} | {} | {} | {ratio:.2} | {theirs:.2} |", told(rounds), told(steps));
    }
}

/// All stations' figures in one call beside a call for each.
fn together(all: &Numbers) {
    println!("\nInstructions of all n figures put in by one call and by n calls, ours (over direct, over values):\n");
    println!(
        "| n, K | together | each pair of them | one by one | together over one by one | direct's |\n|{}",
        "---|".repeat(6)
    );
    for (n, k) in SIZES {
        let of = |engine, what| Column::Whole(what).value(all, engine, n, k);
        let ratio = |engine| Some(of(engine, "together")? / of(engine, "one by one")?);
        let (Some(ours), Some(direct)) = (ratio("ours"), ratio("direct")) else { continue };
        let columns = [Column::Whole("together"), Column::EachPair("together"), Column::Whole("one by one")];
        let cells = columns.map(|column| format!(" {} |", cell(all, &column, n, k))).concat();
        println!("| {n}, {k} |{cells} {ours:.2} | {direct:.2} |");
    }
}

/// The same in lines, and pairs that are refused. Of direct there is none: it plays no lines of its own.
fn pair_lines(all: &Numbers) {
    println!("\nInstructions of a line of pairs and of lines of single proposals:\n");
    println!("| line | n, K | pairs | single | pairs over single | values' |\n|{}", "---|".repeat(6));
    for (name, what) in [("n figures, accepted", "accepted"), ("41 pairs, refused", "refused")] {
        for (n, k) in SIZES.into_iter().filter(|(n, _)| *n > 1) {
            let of = |engine, form: &str| {
                Some(raw(all, engine, n, k, &format!("{what}, {form}"))? - raw(all, engine, n, k, "nothing")?)
            };
            let pair = |engine| Some((of(engine, "pairs")?, of(engine, "single")?));
            let (Some((pairs, single)), Some(values)) = (pair("ours"), pair("values")) else { continue };
            let (ratio, theirs) = (pairs / single, values.0 / values.1);
            println!("| {name} | {n}, {k} | {} | {} | {ratio:.2} | {theirs:.2} |", told(pairs), told(single));
        }
    }
}

/// A table of which the fields stand ready.
fn plain(title: &str, head: &str, folder: &str, name: &str) {
    println!("\n{title}\n\n{head}\n|{}", "---|".repeat(head.matches('|').count() - 1));
    for row in rows(folder, name) {
        let fields = row.iter().map(|f| f.parse::<u64>().map_or_else(|_| f.clone(), |whole| told(whole as f64)));
        println!("|{}", fields.map(|f| format!(" {f} |")).collect::<String>());
    }
}

pub fn print(folder: &str) {
    let counts = numbers(folder, "counts");
    if counts.is_empty() {
        println!("\nNo instructions: there was no valgrind.");
    } else {
        table("Instructions, ours (over direct, over values):", &counts);
        kinds(&counts);
        lines(&counts);
        together(&counts);
        pair_lines(&counts);
    }
    table("Nanoseconds on this machine, ours (over direct, over values):", &numbers(folder, "times"));
    let head = "| sheet | repeats | instructions of one | values' | the whole sheet | values' | time | values' |";
    plain("Sheets of 32,768 bytes, through the program:", head, folder, "sheets");
    let head = "| sheet | lines of its tape | play | tape | compare: alike | compare: played to its end | the playing over play |";
    plain("Instructions of the same sheets, played, taped and beside two tapes:", head, folder, "tapes");
    plain("Deepest stack:", "| call | bytes |", folder, "stack");
    plain("Memory:", "| of | text | data | bss |", folder, "sizes");
}
