//! Demand 3, "Any list of calls": a list, what its calls say of the stations, and what is claimed of that.

use crate::calls;
use crate::engine::Engine;
use crate::halts::Halts;
use crate::model::Answer;
use crate::pairs::{word, Pair};
use crate::random::Random;
use crate::recount::Recount;
use crate::starts;

#[derive(Clone, PartialEq, Eq, Debug)]
pub enum Call {
    /// Only layings that are refused stand in a list.
    Lay(u8, u8),
    Propose(u8, i32),
    Step(u8),
    /// "A sheet's line stands in the list as the single calls it makes": each round's single steps, each pair's proposal.
    Rounds(Halts),
    ProposeAll(Vec<Pair>),
}

#[derive(Clone, PartialEq, Eq, Debug)]
pub struct List {
    pub n: u8,
    pub k: u8,
    pub calls: Vec<Call>,
}

impl List {
    /// What the start holds of two stations, on which the list's own proposals are refused.
    pub fn held(&self) -> Vec<Pair> {
        let proposals = self.calls.iter().flat_map(|call| match call {
            Call::Propose(station, figure) => vec![(*station, *figure)],
            Call::ProposeAll(pairs) => pairs.clone(),
            _ => vec![],
        });
        starts::held(self.n, proposals)
    }
}

/// What a station did by the calls of the list, or by the start that holds its proposal.
#[derive(Clone, Copy, PartialEq, Eq, Debug, Default)]
pub struct Deeds {
    pub proposed: Option<i32>,
    pub stepped: bool,
    pub decided: Option<i32>,
    pub spent: bool,
}

/// A sequential run: stations with their figures in turn; answers what each decided.
pub type Sequential<'a> = &'a dyn Fn(u8, u8, &[(u8, i32)]) -> Vec<Option<i32>>;

/// What a list did by its calls, with the registers that its collects met counted once more.
pub struct Played {
    board: Vec<u8>,
    pub deeds: Vec<Deeds>,
    pub recount: Recount,
    /// A call that is not taken as it must be: a laying, or a line that is not its single calls.
    pub unlike: Option<&'static str>,
}

/// The list played by an engine's calls, one at a time on the board that the one before left.
pub fn play(engine: &dyn Engine, list: &List) -> Played {
    let held = list.held();
    let mut deeds = vec![Deeds::default(); list.n as usize];
    held.iter().for_each(|(station, figure)| deeds[*station as usize - 1].proposed = Some(*figure));
    let board = starts::laid(engine, list.n, list.k, &held);
    let mut played = Played { board, deeds, recount: Recount::new(list.n), unlike: None };
    for call in &list.calls {
        match call {
            Call::Lay(n, k) => played.lay(engine, *n, *k),
            Call::Propose(i, v) => played.propose(engine, *i, *v),
            Call::Step(i) => played.step(engine, *i),
            Call::Rounds(halts) => played.spelled_out(engine, halts),
            Call::ProposeAll(pairs) => played.one_by_one(engine, pairs),
        }
    }
    played
}

impl Played {
    fn lay(&mut self, engine: &dyn Engine, n: u8, k: u8) {
        if engine.lay(&mut self.board, n, k) == 0 {
            self.unlike = self.unlike.or(Some("a laying is taken that must be refused"));
        }
    }

    fn propose(&mut self, engine: &dyn Engine, station: u8, figure: i32) {
        if engine.propose(&mut self.board, station, figure) == 0 {
            self.deeds[station as usize - 1].proposed = Some(figure);
        }
    }

    fn step(&mut self, engine: &dyn Engine, station: u8) {
        let lent = self.board.clone();
        let answer = engine.step(&mut self.board, station);
        if answer & 0xFF == 0 {
            note(&mut self.deeds[station as usize - 1], answer);
            self.recount.step(&lent, station, answer);
        }
    }

    /// Rounds as their single calls, which leave the board that the rounds leave. Refused rounds make none.
    fn spelled_out(&mut self, engine: &dyn Engine, halts: &Halts) {
        let mut whole = self.board.clone();
        if engine.rounds(&mut whole, halts.most, &mut halts.to_bytes()) & 0xFF != 0 {
            return;
        }
        halts.single_steps(whole[0]).iter().for_each(|station| self.step(engine, *station));
        self.alike(&whole, "rounds are not their single steps");
    }

    /// Pairs as their single proposals, all of which are accepted. A refused list makes none.
    fn one_by_one(&mut self, engine: &dyn Engine, pairs: &[Pair]) {
        let mut whole = self.board.clone();
        let mut words: Vec<u64> = pairs.iter().copied().map(word).collect();
        if engine.propose_all(&mut whole, &mut words) != 0 {
            return;
        }
        pairs.iter().for_each(|(station, figure)| self.propose(engine, *station, *figure));
        self.alike(&whole, "pairs are not their single proposals");
    }

    fn alike(&mut self, whole: &[u8], why: &'static str) {
        if self.board != whole {
            self.unlike = self.unlike.or(Some(why));
        }
    }

    /// What is wrong with the list beside what it decided.
    pub fn wrong(&self) -> Option<&str> {
        self.unlike.or(self.recount.wrong.as_deref())
    }
}

fn note(deeds: &mut Deeds, answer: u64) {
    deeds.stepped = true;
    match answer >> 8 & 0xFF {
        6 => deeds.decided = Some((answer >> 32) as i32),
        7 => deeds.spent = true,
        _ => {}
    }
}

/// "For each station in turn, the figure it proposed in the list is proposed and the station is stepped until a step
/// of it answers decided or spent; then the next begins." On two stations the figure is put in by hand.
pub fn sequential(n: u8, k: u8, order: &[(u8, i32)]) -> Vec<Option<i32>> {
    let mut board = starts::fresh(n, k);
    order.iter().map(|(i, v)| alone(&mut board, *i, *v)).collect()
}

fn alone(board: &mut [u8], station: u8, figure: i32) -> Option<i32> {
    starts::put_in(board, station, figure).then_some(())?;
    loop {
        match calls::step(board, station).ok()? {
            Answer::Decided(_, v, _) => return Some(v),
            Answer::Spent(..) => return None,
            _ => {}
        }
    }
}

/// The claim on one list. `Ok` has the decided figure, if there is one.
pub fn judge(n: u8, k: u8, deeds: &[Deeds], r: &mut Random, run: Sequential) -> Result<Option<i32>, String> {
    let Some(v) = deeds.iter().find_map(|d| d.decided) else { return Ok(None) };
    if let Some(other) = deeds.iter().filter_map(|d| d.decided).find(|w| *w != v) {
        return Err(format!("agreement: both {v} and {other} are decided"));
    }
    let order = order_for(deeds, v, r).ok_or_else(|| format!("validity: no station that took a step proposed {v}"))?;
    let decided = run(n, k, &order);
    if decided.len() != order.len() || decided.iter().any(|d| *d != Some(v)) {
        return Err(format!("order: {order:?} decides {decided:?} and not {v}"));
    }
    Ok(Some(v))
}

/// Each station that took a step, once: one that proposed `v` first, the others in any order.
pub fn order_for(deeds: &[Deeds], v: i32, r: &mut Random) -> Option<Vec<(u8, i32)>> {
    let mut order = Vec::new();
    for (at, d) in deeds.iter().enumerate().filter(|(_, d)| d.stepped) {
        order.push((at as u8 + 1, d.proposed?));
    }
    r.shuffle(&mut order);
    let first = order.iter().position(|(_, proposed)| *proposed == v)?;
    order.swap(0, first);
    Some(order)
}

#[cfg(test)]
mod tests {
    use super::*;

    fn did(proposed: i32, decided: Option<i32>) -> Deeds {
        Deeds { proposed: Some(proposed), stepped: true, decided, spent: false }
    }

    fn verdict(deeds: &[Deeds]) -> Result<Option<i32>, String> {
        judge(2, 2, deeds, &mut Random::new(1), &sequential)
    }

    #[test]
    fn the_judge_turns_down_what_is_wrong() {
        assert_eq!(verdict(&[did(3, Some(3)), did(4, Some(3))]), Ok(Some(3)));
        assert_eq!(verdict(&[did(3, None), did(4, None)]), Ok(None));
        assert!(verdict(&[did(3, Some(3)), did(4, Some(4))]).unwrap_err().starts_with("agreement"));
        assert!(verdict(&[did(3, Some(5)), did(4, None)]).unwrap_err().starts_with("validity"));
        let halted = Deeds { stepped: false, ..did(4, None) };
        assert!(verdict(&[did(3, Some(4)), halted]).unwrap_err().starts_with("validity"));
    }
}
