//! Lists of proposals and bursts of steps in which stations are halted for long while others go on: made at random, and
//! built so that a station left alone afterwards needs the most steps. They rely on `habits` for stations that climb side by
//! side; `left_running` plays them.

use crate::figure::Figure;
use crate::habits::contended;
use crate::pairs::Pair;
use crate::random::Random;
use crate::starts;

#[derive(Clone, Copy, PartialEq, Eq, Debug)]
pub enum Part {
    Propose(u8, i32),
    /// So many steps of one station, one after another.
    Steps(u8, usize),
}

#[derive(Clone, PartialEq, Eq, Debug)]
pub struct List {
    pub n: u8,
    pub k: u8,
    pub parts: Vec<Part>,
}

impl List {
    /// What the start holds of two stations, on which the list's own proposals are refused.
    pub fn held(&self) -> Vec<Pair> {
        let proposals = self.parts.iter().filter_map(|part| match *part {
            Part::Propose(station, figure) => Some((station, figure)),
            Part::Steps(..) => None,
        });
        starts::held(self.n, proposals)
    }
}

/// A list of which all accepted proposals are of these figures.
pub fn made(r: &mut Random, figures: &[i32]) -> List {
    let (n, k) = size(r);
    // The first ones have all the figures there are, so that those differ who are overtaken and who overtake.
    let mut own: Vec<i32> = figures.iter().cycle().take(3.min(n as usize)).copied().collect();
    own.resize_with(n as usize, || r.pick(figures));
    let (mut parts, mut more) = (Vec::new(), 2 * (k as usize).min(6));
    if r.once_in(2) {
        // Near the lists that are built below: most of them leave an island to decide on.
        own.sort_by_key(|figure| Figure::of(*figure));
        let islands = if r.once_in(4) { k } else { k.max(3) - 2 };
        let island = r.below(islands as usize) as u8;
        parts = if n > 2 && !r.once_in(3) { overtaking(n, island) } else { late_in_b(n, island) };
        more = 3;
    } else {
        r.shuffle(&mut own);
    }
    for _ in 0..r.below(more) {
        stretch(r, &own, &mut parts);
    }
    (0..r.pick(&[0, 0, 1, 3])).for_each(|_| bent(r, &mut parts));
    if r.once_in(8) {
        parts = scattered(r, &parts);
    }
    for (at, figure) in own.iter().enumerate() {
        proposed(r, n, &mut parts, at as u8 + 1, *figure);
    }
    List { n, k, parts }
}

/// Mostly up to four stations and islands, where a station is overtaken more often than on large boards.
fn size(r: &mut Random) -> (u8, u8) {
    let n = match r.below(16) {
        0 => r.between(1, 16),
        1 => r.between(5, 8),
        2 => 1,
        _ => r.between(2, 4),
    };
    let k = match r.below(16) {
        0 => r.between(2, 64),
        1 => r.between(5, 8),
        _ => r.between(2, 4),
    };
    (n as u8, k as u8)
}

/// So many figures that differ, some of them of one size.
pub fn different(r: &mut Random, count: usize) -> Vec<i32> {
    let mut figures = vec![r.figure()];
    while figures.len() < count {
        let figure = if r.once_in(2) { r.figure() } else { r.near(figures[0]) };
        if !figures.contains(&figure) {
            figures.push(figure);
        }
    }
    figures
}

/// What happens next: two stations circle over an island, one begins a pass and is halted amid it, or bursts of all.
fn stretch(r: &mut Random, own: &[i32], parts: &mut Vec<Part>) {
    let (n, turn) = (own.len(), own.len() + 1);
    let mut two = [r.below(n), r.below(n)];
    two.sort_by_key(|who| Figure::of(own[*who]));
    let [low, high] = two.map(|who| who as u8 + 1);
    match r.below(5) {
        0 | 1 => {
            for (station, turns) in [(low, 1), (high, 1), (low, 1), (high, 2), (low, 1)] {
                parts.push(Part::Steps(station, turns * turn));
            }
        }
        2 => parts.push(Part::Steps(low, r.between(1, 3 * turn - 1))),
        _ => {
            for _ in 0..r.between(1, 2 * n.min(6)) {
                let steps = r.pick(&[1, 1, 2, turn, turn, turn, 2 * turn, 3 * turn - 2]);
                parts.push(Part::Steps(r.between(1, n) as u8, steps));
            }
        }
    }
}

/// One burst a little longer or shorter, left out, or before the one in front of it.
fn bent(r: &mut Random, parts: &mut Vec<Part>) {
    if parts.is_empty() {
        return;
    }
    let at = r.below(parts.len());
    match (r.below(5), parts[at]) {
        (0, _) => drop(parts.remove(at)),
        (1, _) => parts.swap(at, at.saturating_sub(1)),
        (2, Part::Steps(station, count)) => parts[at] = Part::Steps(station, count + r.between(1, 2)),
        (_, Part::Steps(station, count)) => parts[at] = Part::Steps(station, count - r.below(count.min(3))),
        _ => {}
    }
}

/// The same steps one by one, those near each other in any order.
fn scattered(r: &mut Random, parts: &[Part]) -> Vec<Part> {
    let single = |part: &Part| match *part {
        Part::Steps(station, count) => vec![Part::Steps(station, 1); count],
        Part::Propose(..) => vec![],
    };
    let mut steps: Vec<Part> = parts.iter().flat_map(single).collect();
    let near = r.between(1, 40);
    steps.chunks_mut(near).for_each(|few| r.shuffle(few));
    steps
}

/// A proposal at the start, amid the list or nowhere. Behind it may stand one that is refused, of any figure: a second one of
/// the same station, or that of a station that is not there.
fn proposed(r: &mut Random, n: u8, parts: &mut Vec<Part>, station: u8, figure: i32) {
    let at = match r.below(16) {
        0 => return,
        1 => r.below(parts.len() + 1),
        _ => 0,
    };
    parts.insert(at, Part::Propose(station, figure));
    if r.once_in(8) {
        let again = Part::Propose(r.pick(&[station, station, 0, n + 1]), r.figure());
        parts.insert(r.between(at + 1, parts.len()), again);
    }
}

/// Stations with rising figures go side by side from island to island, up to this one, and each keeps its figure.
fn climbing(n: u8, island: u8) -> Vec<Part> {
    let steps = contended(n, island).single_steps(n);
    steps.chunk_by(|a, b| a == b).map(|same| Part::Steps(same[0], same.len())).collect()
}

/// Then the third one is overtaken: on this island it has read only the first register of m.
fn overtaking(n: u8, island: u8) -> Vec<Part> {
    let (mut parts, turn) = (climbing(n, island), n as usize + 1);
    // The first two have collected m with figures of their own, and the third has read where the first one stood.
    parts.extend([Part::Steps(1, turn), Part::Steps(2, turn), Part::Steps(3, 2)]);
    // The first meets the second one's figure in A, adopts it, and takes it into A of the next island.
    parts.extend([Part::Steps(2, 1), Part::Steps(1, 3 * turn + 1)]);
    parts
}

/// Then the second one is overtaken late in its pass: on this island it has read only the first register of B.
fn late_in_b(n: u8, island: u8) -> Vec<Part> {
    let (mut parts, turn) = (climbing(n, island), n as usize + 1);
    let second = n.min(2);
    // The first has met its own figure alone in A, the second both.
    parts.extend([Part::Steps(1, 2 * turn), Part::Steps(second, 2 * turn + 2)]);
    // The first meets the second one's adopt in B, and takes its own figure into A of the next island.
    parts.push(Part::Steps(1, 2 * turn + 1));
    parts
}

/// A list and how many steps of a station it is built for, if that one alone goes on behind it.
pub struct Built {
    pub list: List,
    pub station: u8,
    pub steps: usize,
}

/// All stations propose rising figures first.
fn built(n: u8, k: u8, parts: Vec<Part>, station: u8, steps: usize) -> Built {
    let proposals = (1..=n).map(|station| Part::Propose(station, station as i32));
    Built { list: List { n, k, parts: proposals.chain(parts).collect() }, station, steps }
}

/// Behind it the highest island is the one above the given one, on which station 3 stands. Left alone it ends its pass there,
/// which the first two have spoilt; then one on the highest island, where a lower figure than its own stands in A; and
/// then one alone above that. For three stations or more: no station can need more.
pub fn overtaken(n: u8, k: u8, island: u8) -> Built {
    built(n, k, overtaking(n, island), 3, 9 * (n as usize + 1) - 2)
}

/// Behind it station 2 ends its collect of B, and then needs the same two passes. For two stations or more: of two, none can
/// need more.
pub fn overtaken_in_b(n: u8, k: u8, island: u8) -> Built {
    built(n, k, late_in_b(n, island), 2, 6 * (n as usize + 1) + n as usize - 1)
}

/// Behind it station 2 stands at the start of a pass on the highest island, where a lower figure than its own stands in A.
/// Left alone it needs that pass and one above it. For two stations or more: with two islands none can need more.
pub fn behind_one(n: u8, k: u8, island: u8) -> Built {
    let mut parts = climbing(n, island);
    parts.push(Part::Steps(1, n as usize + 2));
    built(n, k, parts, 2, 6 * (n as usize + 1))
}

/// All of these for some sizes, each on the first island and on the highest one that leaves an island to decide on.
pub fn all_built() -> Vec<Built> {
    let small = (2..=16).flat_map(|n| [2, 3, 4].map(|k| (n, k)));
    let mut all = Vec::new();
    for (n, k) in small.chain([2, 3, 5, 8, 16].map(|n| (n, 64))) {
        all.extend(low_and_high(k, 2).map(|island| behind_one(n, k, island)));
        all.extend(low_and_high(k, 3).map(|island| overtaken_in_b(n, k, island)));
        all.extend(low_and_high(k, 3).filter(|_| n > 2).map(|island| overtaken(n, k, island)));
    }
    all
}

/// The first and the last island with so many from it on, if there are any; once where they are the same.
fn low_and_high(k: u8, needed: u8) -> impl Iterator<Item = u8> {
    let high = k.checked_sub(needed);
    high.map(|_| 0).into_iter().chain(high.filter(|island| *island > 0))
}
