//! Tapes made at random of the algorithm's own one: with a field, a line or a byte changed, short ones, longer ones, and
//! garbage. Sheets for them are made ones of which only the first lines are kept.

use crate::model::{Answer, Mark};
use crate::random::Random;
use crate::sheet;
use crate::sheets;
use crate::shorten::joined;
use crate::tapes::{text, Taped};

/// The first lines of a made sheet, so few that their tape is short, now and then without the last LF.
pub fn short_sheet(r: &mut Random, seed: u64) -> Vec<u8> {
    let whole = sheets::sheet(seed);
    let lines: Vec<Vec<u8>> = sheet::lines(&whole).iter().map(|line| line.to_vec()).collect();
    let mut kept = joined(&lines[..lines.len().min(r.between(1, 24))]);
    if r.once_in(4) {
        kept.pop();
    }
    kept
}

/// An answer of this kind, 0 to 6, with these fields as far as it has them.
fn answer(kind: usize, place: u8, figure: i32, total: u8) -> Answer {
    match kind {
        0 => Answer::Wrote,
        1 => Answer::Read(place > 0),
        2 => Answer::Went(place, figure, total),
        3 => Answer::Marked(if place == 2 { Mark::Commit } else { Mark::Adopt }, figure, total),
        4 => Answer::Adopted(place, figure, total),
        5 => Answer::Decided(place, figure, total),
        _ => Answer::Spent(place, figure, total),
    }
}

fn taken_apart(answer: Answer) -> (usize, u8, i32, u8) {
    match answer {
        Answer::Wrote => (0, 0, 0, 0),
        Answer::Read(filled) => (1, filled as u8, 0, 0),
        Answer::Went(c, v, total) => (2, c, v, total),
        Answer::Marked(flag, v, total) => (3, 1 + (flag == Mark::Commit) as u8, v, total),
        Answer::Adopted(c, v, total) => (4, c, v, total),
        Answer::Decided(c, v, total) => (5, c, v, total),
        Answer::Spent(c, v, total) => (6, c, v, total),
    }
}

/// A number beside this one, or at the end of a range.
fn near(r: &mut Random, number: u8) -> u8 {
    let beside = [number.saturating_sub(1), number + 1, 0, 1, 2, 9, 10, 15, 16, 17, 63, 64, 98, 99];
    r.pick(&beside).min(99)
}

/// The same line but for one field: the station, the kind, or one behind it.
pub fn another(r: &mut Random, taped: Taped) -> Taped {
    let mut changed = taped;
    while changed == taped {
        let (kind, place, figure, total) = taken_apart(taped.answer);
        match r.below(5) {
            0 => changed.station = near(r, taped.station),
            1 => changed.answer = answer(r.below(7), place, figure, total),
            2 => changed.answer = answer(kind, near(r, place), figure, total),
            3 => changed.answer = answer(kind, place, r.near(figure), total),
            _ => changed.answer = answer(kind, place, figure, near(r, total)),
        }
    }
    changed
}

/// A line of any station, kind and fields.
pub fn any(r: &mut Random) -> Taped {
    let (station, place, total) = (r.below(100) as u8, r.below(100) as u8, r.below(100) as u8);
    Taped { station, answer: answer(r.below(7), place, r.figure(), total) }
}

/// The first place of a list, the last, one behind it, or any.
fn place(r: &mut Random, length: usize) -> usize {
    match r.below(8) {
        0 => 0,
        1 => length.saturating_sub(1),
        2 => length,
        _ => r.below(length + 1),
    }
}

/// One change of a list of lines.
fn changed(r: &mut Random, tape: &mut Vec<Taped>) {
    let at = place(r, tape.len());
    let inside = at < tape.len();
    match r.below(9) {
        0..4 if inside => tape[at] = another(r, tape[at]),
        4 if inside => drop(tape.remove(at)),
        5 if inside => tape.insert(at, tape[at]),
        6 if at + 1 < tape.len() => tape.swap(at, at + 1),
        7 => tape.truncate(at),
        _ => tape.insert(at, any(r)),
    }
}

/// Lines that are nearly step answers.
#[rustfmt::skip]
const NEAR: [&str; 20] = [
    "", "(1 refused 14)", "(1 idle)", "(1 going 0 5)", "(1 read)", "(1 read 2)", "(1 read -1)", "(1 wrote 0)",
    "(1 marked 0 5 1)", "(1 marked 3 5 1)", "(1 decided 0 5)", "(1 went 0 5 1 1)", "(100 wrote)", "(-1 wrote)",
    "(1 went 100 5 1)", "(1 went -1 5 1)", "(1 went 0 5 100)", "(1 went 0 5 -1)", "(1 spent 0 2147483648 1)",
    "(1 adopted 0 -2147483649 1)",
];

/// One change of a text by which some line may be no step answer any more.
fn spoilt(r: &mut Random, tape: &mut Vec<u8>) {
    let at = r.below(tape.len() + 1);
    match r.below(11) {
        0 => drop(tape.pop()),
        1 => tape.push(b'\n'),
        2 => tape.insert(at, b'\n'),
        3 => drop(tape.drain(at..)),
        4 => tape.extend((0..r.below(40)).map(|_| r.byte()).collect::<Vec<u8>>()),
        5 => *tape = String::from_utf8_lossy(tape).replace('\n', "\r\n").into_bytes(),
        6 if at < tape.len() => drop(tape.remove(at)),
        7 if at < tape.len() => {
            tape[at] = r.pick(b"()  0123456789-+\n\r\t\0\x7f\x80\xff").wrapping_add(r.below(2) as u8)
        }
        _ => {
            let mut lines: Vec<Vec<u8>> = sheet::lines(tape).iter().map(|line| line.to_vec()).collect();
            lines.push(any(r).to_string().into_bytes());
            let which = r.below(lines.len());
            lines[which] = match r.below(3) {
                0 => r.pick(&NEAR).into(),
                _ => sheets::spoilt(r, lines[which].clone()),
            };
            *tape = joined(&lines);
        }
    }
}

/// Two tapes of a run, mostly near the algorithm's own.
pub fn two(r: &mut Random, own: &[Taped]) -> [Vec<u8>; 2] {
    let mut both = own.to_vec();
    match r.below(8) {
        // Both end early.
        0 | 1 => both.truncate(r.below(own.len() + 1)),
        // Both go on behind the algorithm's end.
        2 => both.extend((0..r.between(1, 4)).map(|_| any(r)).collect::<Vec<Taped>>()),
        // Both are wrong alike.
        3 => changed(r, &mut both),
        4 => both = (0..r.below(6)).map(|_| any(r)).collect(),
        _ => {}
    }
    let mut lists = [both.clone(), both];
    for _ in 0..r.pick(&[0, 1, 1, 1, 2, 3]) {
        changed(r, &mut lists[0]);
    }
    if r.once_in(4) {
        changed(r, &mut lists[1]);
    }
    let mut texts = lists.map(|list| text(&list));
    if r.once_in(3) {
        let which = r.below(2);
        spoilt(r, &mut texts[which]);
    }
    if r.once_in(2) {
        texts.swap(0, 1);
    }
    texts
}

#[cfg(test)]
mod tests {
    use super::*;
    use crate::refusal::Refusal;
    use crate::tapes::{culprit, own, read};

    #[test]
    fn lines_that_are_made_can_be_read() {
        let mut r = Random::new(5);
        for _ in 0..5000 {
            let taped = any(&mut r);
            let changed = another(&mut r, taped);
            assert_ne!(changed, taped);
            assert_eq!(read(changed.to_string().as_bytes()), Some(changed));
        }
    }

    /// Every verdict comes up often, and differences early, amid and late.
    #[test]
    fn every_verdict_is_made() {
        let (mut found, mut late) = ([0; 4], 0);
        for seed in 0..400 {
            let mut r = Random::new(seed);
            let sheet = short_sheet(&mut r, seed);
            let own = own(&sheet, usize::MAX);
            for _ in 0..4 {
                let [first, second] = two(&mut r, &own);
                match culprit(&sheet, &first, &second) {
                    Ok(None) => found[0] += 1,
                    Ok(Some(culprit)) => {
                        found[culprit.tape as usize] += 1;
                        late += (culprit.number > 20) as usize;
                    }
                    Err(refusal) => found[3] += (refusal == Refusal::NoStepAnswer) as usize,
                }
            }
        }
        assert!(found.iter().all(|times| *times > 100) && late > 50, "{found:?}, {late} late");
    }
}
