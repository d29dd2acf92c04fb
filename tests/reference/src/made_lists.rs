//! Lists of calls made at random, to play: `lists` says what is claimed of them.

use crate::habits;
use crate::halts::Halts;
use crate::lists::{Call, List};
use crate::pair_lists;
use crate::pairs::Pair;
use crate::random::Random;

/// A list on a board of any size.
pub fn make(seed: u64) -> List {
    let mut r = Random::new(seed);
    let (n, k) = r.size();
    of_size(&mut r, n, if n > 8 { k.min(8) } else { k })
}

/// A list with bursts of steps, in which stations stop for a stretch or for good.
pub fn of_size(r: &mut Random, n: u8, k: u8) -> List {
    let bursts = if r.once_in(30) { 0 } else { r.between(1, 24 * n as usize) };
    let awake = windows(r, n, bursts);
    let figures: Vec<i32> = (0..r.between(1, 3)).map(|_| r.figure()).collect();
    let mut list = List { n, k, calls: vec![] };
    let by_rounds = r.once_in(3);
    let whole_turns = by_rounds || r.once_in(2);
    if n > 1 && r.once_in(4) {
        circle(r, &mut list);
    }
    list.calls.extend(proposals(r, n, &figures));
    for at in 0..bursts {
        let station = r.between(1, n as usize) as u8;
        if r.once_in(12) {
            let figure = r.pick(&figures);
            list.calls.push(odd(r, n, figure));
        }
        let (from, to, gone) = awake[station as usize - 1];
        if at >= gone || (from..to).contains(&at) {
            continue;
        }
        if by_rounds && r.once_in(n as usize) {
            list.calls.push(Call::Rounds(rounds(r, n)));
            continue;
        }
        let count = burst(r, n as usize, whole_turns);
        list.calls.extend(std::iter::repeat_n(Call::Step(station), count));
    }
    list
}

/// What is proposed first: one by one, or together in a few parts.
fn proposals(r: &mut Random, n: u8, figures: &[i32]) -> Vec<Call> {
    let stations: Vec<u8> = (1..=n).filter(|_| r.below(4) > 0).collect();
    let mut first: Vec<Pair> = stations.into_iter().map(|station| (station, r.pick(figures))).collect();
    if r.once_in(2) {
        return first.into_iter().map(|(station, figure)| Call::Propose(station, figure)).collect();
    }
    r.shuffle(&mut first);
    first.chunks(r.pick(&[1, 2, 8])).map(|part| Call::ProposeAll(part.to_vec())).collect()
}

/// Two stations that circle over all islands but the last, or but a few: the document's second run, by turns of a
/// write and a collect. From there on a decision beside a spent station is near.
fn circle(r: &mut Random, list: &mut List) {
    let high = r.between(1, list.n as usize) as u8;
    let low = high % list.n + 1;
    let [lower, higher] = r.two_figures();
    list.calls.push(Call::Propose(high, higher));
    list.calls.push(Call::Propose(low, lower));
    let islands = list.k as usize - r.pick(&[0, 1, 1, 1, 2]).min(list.k as usize);
    for _ in 0..islands {
        for (station, turns) in [(low, 1), (high, 1), (low, 1), (high, 2), (low, 1)] {
            let steps = turns * (list.n as usize + 1);
            list.calls.extend(std::iter::repeat_n(Call::Step(station), steps));
        }
    }
}

/// Per station the stretch in which it is halted, and the burst from which on it is halted for good.
fn windows(r: &mut Random, n: u8, bursts: usize) -> Vec<(usize, usize, usize)> {
    let mut out = Vec::new();
    for _ in 0..n {
        let from = r.below(bursts + 1);
        let to = from + r.below(bursts + 1);
        let gone = if r.once_in(3) { r.below(bursts + 1) } else { usize::MAX };
        out.push((from, to, gone));
    }
    out
}

/// A few rounds, most of which can be played if nobody stands amid a collect.
fn rounds(r: &mut Random, n: u8) -> Halts {
    let longest = if n > 5 { 1 } else { 4 };
    if r.once_in(10) {
        habits::odd(r, n, longest, &[0, n + 1, 99])
    } else {
        habits::made(r, n, longest)
    }
}

fn burst(r: &mut Random, n: usize, whole_turns: bool) -> usize {
    if whole_turns && !r.once_in(6) {
        return (n + 1) * r.pick(&[1, 1, 1, 2]);
    }
    match r.below(4) {
        0 => 1,
        1 => r.between(1, n + 1),
        2 => r.between(1, 3 * (n + 1)),
        _ => r.between(1, 3),
    }
}

/// Late proposals, second proposals, stations that are not there, layings that are refused.
fn odd(r: &mut Random, n: u8, figure: i32) -> Call {
    match r.below(8) {
        0 => Call::Step(r.pick(&[0, n + 1, 255])),
        3 => Call::ProposeAll(pair_lists::odd(r, n, &(1..=n.min(8)).collect::<Vec<u8>>(), &[0, n + 1, 99])),
        4 => Call::ProposeAll(vec![
            (r.between(0, n as usize + 1) as u8, figure),
            (r.between(1, n as usize) as u8, figure),
        ]),
        1 => Call::Lay(r.pick(&[0, 2, 17]), 2),
        2 => Call::Lay(n, r.pick(&[0, 1, 65])),
        _ => Call::Propose(r.between(0, n as usize + 1) as u8, figure),
    }
}

#[cfg(test)]
mod tests {
    use super::*;
    use crate::calls;
    use crate::engine::Reference;
    use crate::lists::{play, Deeds};
    use crate::starts;

    /// Rounds are played and refused in the made lists, and some of them decide; pairs are put in and refused.
    #[test]
    fn some_lists_have_rounds_and_pairs() {
        let (mut played, mut together) = ([0; 23], [0; 23]);
        for list in (0..600).map(make) {
            let mut board = starts::laid(&Reference, list.n, list.k, &list.held());
            for call in &list.calls {
                match call {
                    Call::Rounds(halts) => {
                        let answer = calls::rounds(&mut board, halts);
                        played[answer.map_or_else(|refusal| refusal.number() as usize, |(_, d)| (d > 0) as usize)] += 1;
                    }
                    Call::Propose(i, v) => drop(calls::propose(&mut board, *i, *v)),
                    Call::ProposeAll(pairs) => {
                        let answer = calls::propose_all(&mut board, pairs);
                        together[answer.map_or_else(|refusal| refusal.number() as usize, |()| 0)] += 1;
                    }
                    Call::Step(i) => drop(calls::step(&mut board, *i)),
                    Call::Lay(..) => {}
                }
            }
        }
        assert!(played[0] > 100 && played[1] > 100 && played[18] > 100 && played[19] > 10, "{played:?}");
        assert!(together[0] > 100 && [12, 13, 20, 22].iter().all(|number| together[*number] > 50), "{together:?}");
    }

    #[test]
    fn some_lists_decide_beside_spent_stations() {
        let deeds: Vec<Vec<Deeds>> = (0..300).map(|seed| play(&Reference, &make(seed)).deeds).collect();
        let both = |d: &&Vec<Deeds>| d.iter().any(|s| s.spent) && d.iter().any(|s| s.decided.is_some());
        assert!(deeds.iter().filter(both).count() > 0);
    }
}
