//! Halting habits, most of them made at random: rounds that can be played, rounds that break a rule, and lists of any bytes.

use crate::halts::{Halts, ROUND_END};
use crate::pairs::Pair;
use crate::random::Random;
use crate::sheet::{LONGEST_LINE, LONGEST_SHEET};
use crate::starts;

/// Rounds that every board of n stations can play.
pub fn made(r: &mut Random, n: u8, longest: usize) -> Halts {
    let count = r.below(longest + 1);
    let rounds = match r.below(4) {
        0 => over_and_over(r, n, count),
        1 => circling(r, n, count),
        _ => {
            let width = r.below(n as usize + 1);
            (0..count).map(|_| some(r, n, width)).collect()
        }
    };
    let widest = rounds.iter().map(Vec::len).max().unwrap_or(0);
    let most = widest.max(r.pick(&[0, 0, widest, widest + 1, 99])) as u8;
    Halts { most, rounds }
}

/// At most so many stations, in rising order.
fn some(r: &mut Random, n: u8, width: usize) -> Vec<u8> {
    let mut all: Vec<u8> = (1..=n).collect();
    r.shuffle(&mut all);
    all.truncate(r.below(width + 1));
    all.sort();
    all
}

/// A few rounds again and again, as a planner tries a habit.
fn over_and_over(r: &mut Random, n: u8, count: usize) -> Vec<Vec<u8>> {
    let width = r.between(0, 2.min(n as usize));
    let few: Vec<Vec<u8>> = (0..r.between(1, 4)).map(|_| some(r, n, width)).collect();
    few.iter().cycle().take(count).cloned().collect()
}

/// One station suspended a round, so that three or four stations with one figure above equal ones never decide.
fn circling(r: &mut Random, n: u8, count: usize) -> Vec<Vec<u8>> {
    const THREE: [&[u8]; 4] = [&[3], &[1], &[], &[2]];
    const FOUR: [&[u8]; 4] = [&[3], &[2], &[4], &[1]];
    let (first, again): (&[&[u8]], _) = if n >= 4 { (&[&[1]], FOUR) } else { (&[&[], &[1], &[2]], THREE) };
    let skipped = if r.once_in(3) { r.below(first.len() + 1) } else { 0 };
    let all = first.iter().skip(skipped).chain(again.iter().cycle()).take(count);
    all.map(|named| named.iter().copied().filter(|s| *s <= n).collect()).collect()
}

/// What the stations propose: one figure above equal ones, with which some habits keep them from deciding, or any.
pub fn figures(r: &mut Random, n: u8, one_above: bool) -> Vec<i32> {
    let [low, high] = r.two_figures();
    let figure = |station| match one_above {
        true if station == n => high,
        true => low,
        false => r.figure(),
    };
    (1..=n).map(figure).collect()
}

/// A higher station has a higher figure, all of eleven characters; that of station 16 is the largest of all.
fn rising_figure(station: u8) -> i32 {
    i32::MIN + 16 - station as i32
}

/// All of sixteen stations with these.
pub fn rising_pairs() -> Vec<Pair> {
    (1..=16).map(|station| (station, rising_figure(station))).collect()
}

/// All of sixteen stations propose these, as lines of a sheet.
pub fn rising_lines() -> String {
    rising_pairs().iter().map(|(station, figure)| format!("(propose {station} {figure})\n")).collect()
}

/// A fresh board on which every station has proposed one of these.
pub fn rising(n: u8, k: u8) -> Vec<u8> {
    starts::proposed(n, k, &rising_pairs()[..n as usize])
}

/// Rounds in which, on a board with rising figures, every station takes all its 3n + 3 steps on all K islands. On each
/// island the stations collect m and A one after the other, the lowest figure first; then all but the first go through
/// B, and the first comes last with its commit. It meets adopts, and they met no commit. A station alone decides on its
/// first island.
pub fn contended(n: u8, k: u8) -> Halts {
    let island = [vec![], vec![], vec![1], (2..=n).collect()];
    Halts { most: n, rounds: island.iter().cycle().take(4 * k as usize).cloned().collect() }
}

/// One round changed so that it names a station that is not there, the same one twice, one out of order, or too many.
pub fn odd(r: &mut Random, n: u8, longest: usize, beyond: &[u8]) -> Halts {
    let mut halts = made(r, n, longest);
    if halts.rounds.is_empty() {
        halts.rounds.push(vec![]);
    }
    let at = r.below(halts.rounds.len());
    let named = &mut halts.rounds[at];
    let place = r.below(named.len() + 1);
    match r.below(7) {
        0 => named.insert(0, 0),
        1 => named.push(n + 1),
        2 => named.insert(place, r.pick(beyond)),
        3 => named.insert(place, r.between(1, n as usize) as u8),
        4 => named.extend(named.last().copied()),
        5 => named.reverse(),
        _ => halts.most = (named.len() as u8).saturating_sub(1),
    }
    // The count itself is right as often as not, so that it is not what is refused.
    if r.once_in(2) {
        halts.most = halts.most.max(halts.rounds.iter().map(Vec::len).max().unwrap_or(0) as u8);
    }
    halts
}

/// A list that a library call is lent: rounds that can be played, odd ones, or bytes that mean any rounds.
pub fn list(r: &mut Random, n: u8, longest: usize) -> (u8, Vec<u8>) {
    let n = n.clamp(1, 16);
    let halts = match r.below(4) {
        0 => return (r.byte(), (0..r.below(24)).map(|_| r.byte()).collect()),
        1 => return (r.below(4) as u8, (0..r.below(24)).map(|_| r.pick(&[0, 1, 2, 3, n, 254, ROUND_END])).collect()),
        2 => odd(r, n, longest, &[0, n + 1, 99, 100, 254]),
        _ => made(r, n, longest),
    };
    let mut named = halts.to_bytes();
    // The last round may lack its end.
    if r.once_in(3) {
        named.pop();
    }
    (halts.most, named)
}

/// Rounds for a sheet: cut to what a line holds, but for a few that are left too long.
pub fn line(r: &mut Random, n: u8) -> Vec<u8> {
    let longest = r.pick(&[1, 3, 8, 8, 20, 90]);
    let mut halts = if r.once_in(6) { odd(r, n, longest, &[0, n + 1, 17, 98, 99]) } else { made(r, n, longest) };
    while halts.to_line().len() > LONGEST_LINE && !r.once_in(40) {
        halts.rounds.pop();
    }
    let line = halts.to_line();
    if r.once_in(12) { bent(r, &line) } else { line }.into_bytes()
}

/// A line that comes near the grammar: a space too many or too few, a bracket too many, a number outside its range.
fn bent(r: &mut Random, line: &str) -> String {
    #[rustfmt::skip]
    const BENT: [(&str, &str); 20] = [
        ("(rounds ", "(rounds  "), ("(rounds ", "(rounds 0"), ("(rounds ", "(rounds -"), ("(rounds ", "(rounds 10"),
        ("(rounds ", "(rounds () "), ("(rounds ", "(round "), ("(rounds ", "rounds "), (" (", "("), (" (", "  ("),
        (" (", " (("), ("(", "( "), (")", " )"), (")", "))"), (")", ""), (") (", ")("), (") (", ") 1 ("), ("()", "( )"),
        ("()", "(100)"), ("()", "(times 1 1)"), ("()", "(-1)"),
    ];
    let (from, to) = r.pick(&BENT);
    let places: Vec<usize> = line.match_indices(from).map(|(at, _)| at).collect();
    if places.is_empty() {
        return line.to_string();
    }
    let at = r.pick(&places);
    format!("{}{to}{}", &line[..at], &line[at + from.len()..])
}

/// The single steps of rounds as lines of a sheet, station by station, each line as long as it may be.
pub fn steps_lines(halts: &Halts, n: u8) -> Vec<String> {
    let steps = halts.single_steps(n);
    let items = steps.chunk_by(|a, b| a == b).map(|same| format!(" (times {} {})", same.len(), same[0]));
    let mut lines = vec![String::from("(steps")];
    for item in items {
        if lines[lines.len() - 1].len() + item.len() + 1 > LONGEST_LINE {
            lines.push(String::from("(steps"));
        }
        lines.last_mut().expect("one at least").push_str(&item);
    }
    lines.iter().map(|line| format!("{line})")).collect()
}

/// The lines that say how the stations stand.
pub fn shown(printed: &[u8]) -> Vec<&[u8]> {
    printed.split(|b| *b == b'\n').filter(|line| line.starts_with(b"(stations ")).collect()
}

fn length_of(lines: &[String]) -> usize {
    lines.iter().map(|line| line.len() + 1).sum()
}

/// Two sheets of which one has rounds where the other has their single steps, as far as a sheet goes. Both show the same.
pub fn twins(seed: u64) -> [Vec<u8>; 2] {
    let mut r = Random::new(seed);
    let (n, k) = r.laid_size();
    let mut head = vec![format!("(board {n} {k})")];
    let one_above = r.once_in(2);
    for (at, figure) in figures(&mut r, n, one_above).iter().enumerate() {
        head.push(format!("(propose {} {figure})", at + 1));
    }
    let mut sheets = [head.clone(), head];
    for _ in 0..r.between(1, 8) {
        let mut halts = made(&mut r, n, 30);
        while halts.to_line().len() > LONGEST_LINE {
            halts.rounds.pop();
        }
        let turn = format!("(steps (times {} {}))", n + 1, r.between(1, n as usize));
        let alike = if r.once_in(3) { vec!["(show)".to_string(), turn] } else { vec!["(show)".to_string()] };
        let steps = steps_lines(&halts, n);
        if length_of(&sheets[1]) + length_of(&steps) + length_of(&alike) > LONGEST_SHEET {
            break;
        }
        sheets[0].push(halts.to_line());
        sheets[1].extend(steps);
        sheets.iter_mut().for_each(|sheet| sheet.extend(alike.clone()));
    }
    sheets.map(|lines| format!("{}\n", lines.join("\n")).into_bytes())
}

#[cfg(test)]
mod tests {
    use super::*;
    use crate::figure::Figure;

    #[test]
    fn figures_that_rise() {
        let figures: Vec<i32> = (1..=16).map(rising_figure).collect();
        assert!(figures.windows(2).all(|two| Figure::of(two[0]) < Figure::of(two[1])));
        assert!(figures.iter().all(|v| v.to_string().len() == 11) && figures[15] == i32::MIN);
    }

    #[test]
    fn twins_show_the_same() {
        for seed in (0..200).chain([501_864]) {
            let [rounds, steps] = twins(seed).map(|sheet| crate::sheet::play(&sheet));
            assert_eq!(shown(&rounds), shown(&steps));
            assert!(rounds.windows(8).any(|bytes| bytes == b"(played ") && !shown(&rounds).is_empty());
        }
    }

    /// Made rounds can be played, odd ones mostly not; a line says the rounds that it was made of.
    #[test]
    fn what_is_made() {
        let mut r = Random::new(31);
        let mut unfit = 0;
        for _ in 0..2000 {
            let n = r.between(1, 16) as u8;
            let halts = made(&mut r, n, 12);
            assert!(halts.fit(n as usize), "{halts:?}");
            assert_eq!(Halts::of_bytes(halts.most, &halts.to_bytes()), halts);
            if halts.to_line().len() <= LONGEST_LINE {
                let read = crate::sheet::read(halts.to_line().as_bytes());
                assert_eq!(read, Ok(crate::sheet::Form::Rounds(halts)));
            }
            unfit += !odd(&mut r, n, 12, &[0, 99]).fit(n as usize) as u32;
        }
        assert!(unfit > 1000, "{unfit}");
    }
}
