//! Sheets made at random: lines that are forms, and lines that are forms no more.

use crate::calls::laid_counts;
use crate::habits;
use crate::pair_lists;
use crate::random::Random;
use crate::sheet::{LONGEST_LINE, LONGEST_SHEET};

/// What the generator keeps in mind between lines: the board that it last laid, and lines to come soon, last first.
struct Laid {
    n: usize,
    lines_left: usize,
    soon: Vec<String>,
    /// Only whole turns are stepped, so that rounds can be played.
    whole_turns: bool,
}

/// A sheet with its lines as they were made; the last byte may lack its LF.
pub fn sheet(seed: u64) -> Vec<u8> {
    let mut r = Random::new(seed);
    let lines = match r.below(8) {
        0 => r.between(200, 900),
        1 => r.between(0, 5),
        _ => r.between(20, 120),
    };
    let spoil = r.pick(&[0, 0, 0, 4, 12, 40]);
    let heavy = r.once_in(6);
    let mut out = Vec::new();
    let mut laid = Laid { n: 3, lines_left: 0, soon: vec![], whole_turns: false };
    for at in 0..lines {
        let mut line =
            if at == 0 && !r.once_in(20) { board(&mut r, &mut laid) } else { form(&mut r, &mut laid, heavy) };
        if spoil > 0 && r.once_in(spoil) {
            line = spoilt(&mut r, line);
        }
        if out.len() + line.len() + 1 > LONGEST_SHEET {
            break;
        }
        out.extend(line);
        out.push(b'\n');
    }
    if r.once_in(5) {
        out.pop();
    }
    out
}

/// So many lines for a board of n stations that is there already.
pub fn lines_on(r: &mut Random, n: usize, count: usize) -> Vec<Vec<u8>> {
    let soon = if n > 1 && r.once_in(2) { circling(r, n) } else { vec![] };
    let mut laid = Laid { n, lines_left: count, soon, whole_turns: r.once_in(2) };
    (0..count).map(|_| form(r, &mut laid, false)).collect()
}

fn form(r: &mut Random, laid: &mut Laid, heavy: bool) -> Vec<u8> {
    if laid.lines_left == 0 {
        return board(r, laid);
    }
    laid.lines_left -= 1;
    if r.below(4) > 0 {
        if let Some(line) = laid.soon.pop() {
            return line.into_bytes();
        }
    }
    let rounds = if laid.whole_turns { 5 } else { 1 };
    match r.below(10 + rounds) {
        0 => odd_board(r, laid),
        1 | 2 => b"(show)".to_vec(),
        3 if r.once_in(2) => pair_lists::line(r, laid.n as u8),
        3 => propose(r, laid.n),
        4..10 if laid.whole_turns && !r.once_in(40) => format!("(steps {})", turns(r, laid.n)).into_bytes(),
        4..10 => steps(r, laid.n, heavy),
        _ => habits::line(r, laid.n as u8),
    }
}

fn board(r: &mut Random, laid: &mut Laid) -> Vec<u8> {
    let (n, k) = r.laid_size();
    let soon = match r.below(8) {
        0 | 1 if n > 1 => circling(r, n as usize),
        2 if n > 2 => meeting(r, n as usize),
        _ => proposals(r, n as usize),
    };
    *laid = Laid { n: n as usize, lines_left: r.between(1, 90), soon, whole_turns: r.once_in(3) };
    format!("(board {n} {k})").into_bytes()
}

/// Every station's proposal, in any order: one by one, or in lines of several, some of which have a fault.
fn proposals(r: &mut Random, n: usize) -> Vec<String> {
    let one_above = r.once_in(4);
    let mut pairs: Vec<(u8, i32)> = (1..).zip(habits::figures(r, n as u8, one_above)).collect();
    r.shuffle(&mut pairs);
    if r.once_in(2) {
        return pairs.iter().map(|(i, v)| format!("(propose {i} {v})")).collect();
    }
    let mut lines: Vec<String> = pairs.chunks(r.pick(&[1, 2, 5, 16])).flat_map(pair_lists::lines).collect();
    if r.once_in(3) {
        pair_lists::with_fault(r, n as u8, &[0, n as u8 + 1, 99], &mut pairs);
        lines.extend(pair_lists::lines(&pairs));
    }
    lines
}

/// Two stations that circle: many end spent.
fn circling(r: &mut Random, n: usize) -> Vec<String> {
    let high = r.between(1, n);
    let low = neighbour(high, n);
    let [lower, higher] = r.two_figures();
    let first = format!("(propose {high} {higher})");
    let second = format!("(propose {low} {lower})");
    let steps = format!("(steps {})", circle(n, high, r.pick(&[1, 2, 2, 3, 63, 64])));
    vec!["(show)".to_string(), steps, second, first]
}

/// Three stations of which two meet in B.
fn meeting(r: &mut Random, n: usize) -> Vec<String> {
    let mut all: Vec<usize> = (1..=n).collect();
    r.shuffle(&mut all);
    let [middle, higher] = r.two_figures();
    let lines = meeting_lines(n, [all[0], all[1], all[2]], [0, middle, higher]);
    lines.lines().rev().map(str::to_string).collect()
}

/// The higher figure stands in A before the station with the lowest reads there, and after the one with the middle figure
/// did. So these two come to B with adopts of different figures, and each reads both.
pub fn meeting_lines(n: usize, [low, middle, high]: [usize; 3], figures: [i32; 3]) -> String {
    let proposals = [low, middle, high].into_iter().zip(figures).map(|(i, v)| format!("(propose {i} {v})\n"));
    let turn = n + 1;
    let in_m = format!("(times {turn} {low}) (times {turn} {middle}) (times {turn} {high})");
    let in_a = format!("{low} (times {turn} {middle}) {high} (times {n} {low})");
    let in_b = format!("(times {turn} {low} {middle})");
    format!("{}(steps {in_m} {in_a})\n(show)\n(steps {in_b})\n(show)\n", proposals.collect::<String>())
}

fn neighbour(i: usize, n: usize) -> usize {
    i % n + 1
}

/// Numbers at the ends of every range, so that most of these are refused between accepted ones.
fn odd_board(r: &mut Random, laid: &mut Laid) -> Vec<u8> {
    let n = r.pick(&[0, 1, 2, 2, 16, 17, 18, 50, 99, 100]);
    let k = r.pick(&[0, 1, 2, 2, 3, 64, 65, 99, 100, 128]);
    if laid_counts(n as u8, k).is_ok() {
        laid.n = n;
    }
    format!("(board {n} {k})").into_bytes()
}

fn station(r: &mut Random, n: usize) -> usize {
    match r.below(40) {
        0 => r.pick(&[0, n + 1, 17, 99]),
        _ => r.between(1, n),
    }
}

fn propose(r: &mut Random, n: usize) -> Vec<u8> {
    let i = station(r, n);
    format!("(propose {i} {})", r.figure()).into_bytes()
}

/// Short runs while stations still meet; a heavy sheet has runs near the limit as well.
fn steps(r: &mut Random, n: usize, heavy: bool) -> Vec<u8> {
    let most = if heavy && r.once_in(4) { 70_000 } else { r.pick(&[8, 40, 40, 300]) };
    let mut text = String::from("(steps");
    let mut left = most;
    for _ in 0..r.below(12) {
        let item = item(r, n, left, 1);
        if text.len() + item.len() + 2 > LONGEST_LINE {
            break;
        }
        text.push(' ');
        text.push_str(&item);
        left = (left / 2).max(1);
    }
    text.push(')');
    text.into_bytes()
}

fn item(r: &mut Random, n: usize, most: usize, depth: usize) -> String {
    if most > n && depth < 7 && r.once_in(4) {
        let high = r.between(1, n);
        return if n > 1 && r.once_in(6) { circle(n, high, r.between(1, 4)) } else { turns(r, n) };
    }
    if depth >= 8 || most < 2 || r.below(5) > 1 {
        return station(r, n).to_string();
    }
    let count = if r.once_in(3) { r.between(1, most.min(99_999)) } else { r.between(1, most.min(20)) };
    let inner = r.between(1, 3);
    let each = (most / count / inner).max(1);
    let items: Vec<String> = (0..inner).map(|_| item(r, n, each, depth + 1)).collect();
    format!("(times {count} {})", items.join(" "))
}

/// Whole turns of one station, a write and a collect each: stations that take such turns meet most often.
fn turns(r: &mut Random, n: usize) -> String {
    let count = (n + 1) * r.pick(&[1, 1, 2, 3]);
    format!("(times {count} {})", r.between(1, n))
}

/// The document's second run on any board: two stations that meet on one island after the other.
pub fn circle(n: usize, high: usize, islands: usize) -> String {
    let low = neighbour(high, n);
    let (one, two) = (n + 1, 2 * n + 2);
    let start = format!("(times {one} {low}) (times {one} {high}) (times {one} {low})");
    format!("(times {islands} {start} (times {two} {high}) (times {one} {low}))")
}

/// Changes a line in one of the ways that the document turns down; some changes leave a form, which is as good.
pub fn spoilt(r: &mut Random, mut line: Vec<u8>) -> Vec<u8> {
    if r.once_in(6) {
        return made_up(r);
    }
    for _ in 0..r.pick(&[1, 1, 1, 2, 5]) {
        let at = r.below(line.len() + 1);
        let byte = spoiler(r);
        match r.below(7) {
            0 => line.insert(at, byte),
            1 if at < line.len() => line[at] = byte,
            2 if at < line.len() => drop(line.remove(at)),
            3 => line.truncate(at),
            4 => respace(r, &mut line),
            5 => renumber(r, &mut line),
            _ => recase(r, &mut line),
        }
    }
    line.retain(|b| *b != b'\n');
    line
}

fn spoiler(r: &mut Random) -> u8 {
    match r.below(3) {
        0 => r.byte(),
        _ => r.pick(b"()  0123456789-+\r\t\0\x7f\x80\xff,;#'\"xX.e"),
    }
}

/// A space more or less, where one stands.
fn respace(r: &mut Random, line: &mut Vec<u8>) {
    let spaces: Vec<usize> = (0..line.len()).filter(|i| b" ()".contains(&line[*i])).collect();
    if spaces.is_empty() {
        return;
    }
    let at = r.pick(&spaces);
    if line[at] == b' ' && r.once_in(2) {
        line.remove(at);
    } else {
        line.insert(at + r.below(2), b' ');
    }
}

/// Another way to write a number, or a number near the end of a range.
fn renumber(r: &mut Random, line: &mut Vec<u8>) {
    #[rustfmt::skip]
    const NUMBERS: [&str; 32] = [
        "00", "01", "-0", "+1", "-1", "-01", "--1", "-", "+", "0", "1", "2", "16", "17", "64", "65", "98", "99",
        "100", "101", "255", "256", "99998", "99999", "100000", "2147483647", "2147483648", "-2147483648",
        "-2147483649", "4294967297", "18446744073709551617", "340282366920938463463374607431768211457",
    ];
    let digit = |b: &u8| b.is_ascii_digit() || *b == b'-';
    let starts: Vec<usize> =
        (0..line.len()).filter(|i| digit(&line[*i]) && (*i == 0 || !digit(&line[i - 1]))).collect();
    if starts.is_empty() {
        return;
    }
    let from = r.pick(&starts);
    let to = (from..line.len()).find(|i| !digit(&line[*i])).unwrap_or(line.len());
    line.splice(from..to, r.pick(&NUMBERS).bytes());
}

fn recase(r: &mut Random, line: &mut [u8]) {
    let letters: Vec<usize> = (0..line.len()).filter(|i| line[*i].is_ascii_alphabetic()).collect();
    if !letters.is_empty() {
        let at = r.pick(&letters);
        line[at] = if r.once_in(2) { line[at].to_ascii_uppercase() } else { b'a' + r.below(26) as u8 };
    }
}

/// A line of the grammar's own pieces in any order, or of any bytes.
fn made_up(r: &mut Random) -> Vec<u8> {
    #[rustfmt::skip]
    const PIECES: [&str; 27] = [
        "(", ")", "(", ")", " ", " ", " ", "1", "2", "0", "-1", "99", "board", "propose", "steps", "show", "times",
        "rounds", "(times 2 ", "(steps ", "(board ", "(rounds 1 ", "()", "(1)", "(propose ", "(1 5)", "(2 -1)",
    ];
    let mut out = Vec::new();
    let any = r.once_in(4);
    let most = if r.once_in(8) { 300 } else { 14 };
    for _ in 0..r.below(most) {
        match any {
            true => out.push(r.byte()),
            false => out.extend(r.pick(&PIECES).bytes()),
        }
    }
    out.retain(|b| *b != b'\n');
    out
}
