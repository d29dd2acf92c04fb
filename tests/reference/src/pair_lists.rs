//! Pairs of stations and figures made at random: lists that a board accepts, lists with a fault or several, and lists of
//! any numbers.

use crate::calls;
use crate::model::Standing;
use crate::pairs::{self, Pair};
use crate::random::Random;
use crate::sheet::LONGEST_LINE;

/// The idle stations of a board. Of one that is not sound they do not matter, and are three.
pub fn idle(board: &[u8]) -> Vec<u8> {
    if calls::check(board).is_err() {
        return vec![1, 2, 3];
    }
    (1..=board[0]).filter(|s| matches!(calls::standing(board, *s), Ok((Standing::Idle, _)))).collect()
}

/// A figure each.
pub fn with_figures(r: &mut Random, stations: &[u8]) -> Vec<Pair> {
    stations.iter().map(|station| (*station, r.figure())).collect()
}

/// Some of these stations, or all, each once and in any order.
pub fn some(r: &mut Random, stations: &[u8]) -> Vec<Pair> {
    let mut stations = stations.to_vec();
    r.shuffle(&mut stations);
    if r.once_in(2) {
        stations.truncate(r.below(stations.len() + 1));
    }
    with_figures(r, &stations)
}

/// A fault put into a list: a number that is no station, a station of the board that may not be idle, or one that the list
/// has already, near or far, with another figure or the same.
pub fn with_fault(r: &mut Random, n: u8, beyond: &[u8], pairs: &mut Vec<Pair>) {
    let at = r.below(pairs.len() + 1);
    match r.below(4) {
        0 => pairs.insert(at, (r.pick(beyond), r.figure())),
        1 => pairs.insert(at, (r.between(1, n as usize) as u8, r.figure())),
        2 if !pairs.is_empty() => {
            let again = pairs[r.below(pairs.len())];
            pairs.insert(at, again);
        }
        _ if !pairs.is_empty() => {
            let again = pairs[at.min(pairs.len() - 1)].0;
            pairs.insert(at, (again, r.figure()));
        }
        _ => {}
    }
}

/// Some of the idle stations, and a fault or several among them.
pub fn odd(r: &mut Random, n: u8, idle: &[u8], beyond: &[u8]) -> Vec<Pair> {
    let mut pairs = some(r, idle);
    for _ in 0..r.pick(&[1, 1, 2, 3]) {
        with_fault(r, n, beyond, &mut pairs);
    }
    pairs
}

/// A list that a library call is lent. Some have what stands in bits 8 to 31, which nobody looks at.
pub fn words(r: &mut Random, n: u8, idle: &[u8]) -> Vec<u64> {
    let n = n.clamp(1, 16);
    let pairs = match r.below(5) {
        0 => return (0..r.below(24)).map(|_| r.word()).collect(),
        1 => (0..r.below(8)).map(|_| (r.pick(&[0, 1, 2, n, n + 1, 16, 17, 255]), r.figure())).collect(),
        2 | 3 => odd(r, n, idle, &[0, 0, n + 1, n + 1, 16, 17, 99, 100, 128, 254, 255]),
        _ => some(r, idle),
    };
    let beside = if r.once_in(3) { 0xFFFF_FF00 } else { 0 };
    pairs.into_iter().map(|pair| pairs::word(pair) | r.word() & beside).collect()
}

/// Pairs as lines of a sheet, each as long as it may be.
pub fn lines(pairs: &[Pair]) -> Vec<String> {
    let mut out = Vec::new();
    let mut left = pairs;
    while !left.is_empty() {
        let fit = (1..=left.len()).rev().find(|count| pairs::line(&left[..*count]).len() <= LONGEST_LINE);
        let (now, rest) = left.split_at(fit.expect("one pair fits"));
        out.push(pairs::line(now));
        left = rest;
    }
    out
}

/// A line of a sheet, most often with a fault, since the writer does not know who is idle; now and then one that comes
/// near the grammar, or is too long.
pub fn line(r: &mut Random, n: u8) -> Vec<u8> {
    let all: Vec<u8> = (1..=n).collect();
    let mut pairs = if r.once_in(2) { odd(r, n, &all, &[0, n + 1, 17, 98, 99]) } else { some(r, &all) };
    pairs.truncate(r.pick(&[1, 2, 3, 16, 41]));
    if r.once_in(12) {
        pairs = (0..r.between(38, 43)).map(|_| (r.below(10) as u8, r.below(10) as i32)).collect();
    }
    while pairs::line(&pairs).len() > LONGEST_LINE && !r.once_in(40) {
        pairs.pop();
    }
    let line = pairs::line(&pairs);
    if r.once_in(8) { bent(r, &line) } else { line }.into_bytes()
}

/// A space too many or too few, a bracket too many, a number outside its range, a pair that is none.
fn bent(r: &mut Random, line: &str) -> String {
    #[rustfmt::skip]
    const BENT: [(&str, &str); 28] = [
        ("(propose ", "(propose  "), ("(propose ", "(propose"), ("(propose ", "(propose 1 "), ("(propose ", "(propose () "),
        ("(propose ", "(propose 1 5 "), ("(propose ", "(propos "), ("(propose ", "propose "), (" (", "("), (" (", "  ("),
        (" (", " (("), (" (", " (10"), (" (", " (0"), (" (", " (+"), (" (", " (-"), (" (", " ( "), (") (", ")("),
        (") (", ") 1 ("), (") (", " "), (")", " )"), (")", "))"), (")", ""), (")", "0000000000)"), (")", " 1)"), (")", ".0)"),
        ("))", ") 1)"), ("))", ") ())"), ("))", ") (1))"), ("))", ") 1 5)"),
    ];
    let (from, to) = r.pick(&BENT);
    let places: Vec<usize> = line.match_indices(from).map(|(at, _)| at).collect();
    if places.is_empty() {
        return line.to_string();
    }
    let at = r.pick(&places);
    format!("{}{to}{}", &line[..at], &line[at + from.len()..])
}

/// Two sheets of which one has pairs where the other has single proposals, in another order. Both show the same.
pub fn twins(seed: u64) -> [Vec<u8>; 2] {
    let mut r = Random::new(seed);
    let mut sheets = [(); 2].map(|()| Vec::new());
    for _ in 0..r.between(1, 4) {
        let (n, k) = r.laid_size();
        let mut stations: Vec<u8> = (1..=n).collect();
        r.shuffle(&mut stations);
        sheets.iter_mut().for_each(|sheet| sheet.push(format!("(board {n} {k})")));
        for part in stations.chunks(r.between(1, n as usize)) {
            let mut pairs = with_figures(&mut r, part);
            sheets[0].extend(lines(&pairs));
            r.shuffle(&mut pairs);
            sheets[1].extend(pairs.iter().map(|(station, figure)| format!("(propose {station} {figure})")));
            let steps = format!("(steps (times {} {}))", n + 1, r.between(1, n as usize));
            sheets
                .iter_mut()
                .for_each(|sheet| sheet.extend(["(show)".to_string(), steps.clone(), "(show)".to_string()]));
        }
    }
    sheets.map(|lines| format!("{}\n", lines.join("\n")).into_bytes())
}

#[cfg(test)]
mod tests {
    use super::*;
    use crate::boards;
    use crate::habits::shown;
    use crate::refusal::Refusal;
    use crate::sheet::{play, read, Form};

    #[test]
    fn twins_show_the_same() {
        for seed in 0..300 {
            let [together, single] = twins(seed).map(|sheet| play(&sheet));
            assert_eq!(shown(&together), shown(&single));
            assert!(!shown(&together).is_empty() && !together.windows(9).any(|bytes| bytes == b"(refused "));
        }
    }

    /// Lists of idle stations are accepted, and every fault comes up in odd ones.
    #[test]
    fn what_is_made() {
        let mut r = Random::new(51);
        let mut refused = [0; 23];
        for _ in 0..3000 {
            let (n, k) = (r.pick(&[1, 3, 4, 5, 6, 7, 8, 9, 10, 11, 12, 13, 14, 15, 16]), 2);
            let board = boards::sound(&mut r, n, k);
            let idle = idle(&board);
            let pairs = some(&mut r, &idle);
            assert_eq!(calls::propose_all(&mut board.clone(), &pairs), Ok(()));
            let odd = odd(&mut r, n, &idle, &[0, n + 1, 99]);
            let number = calls::propose_all(&mut board.clone(), &odd).map_or_else(Refusal::number, |()| 0);
            refused[number as usize] += 1;
        }
        assert!([12, 13, 20].iter().all(|number| refused[*number] > 300), "{refused:?}");
    }

    /// A line says the pairs that it was made of; sixteen of the longest pairs need two lines.
    #[test]
    fn lines_say_their_pairs() {
        let mut r = Random::new(52);
        for _ in 0..2000 {
            let n = r.between(1, 16) as u8;
            let pairs = some(&mut r, &(1..=n).collect::<Vec<u8>>());
            let mut said = Vec::new();
            for line in lines(&pairs) {
                let Ok(Form::ProposeAll(some)) = read(line.as_bytes()) else { panic!("{line}") };
                said.extend(some);
            }
            assert_eq!(said, pairs);
        }
        let longest: Vec<Pair> = (1..=16).map(|station| (station, i32::MIN)).collect();
        assert_eq!((pairs::line(&longest).len(), lines(&longest).len()), (272, 2));
    }
}
