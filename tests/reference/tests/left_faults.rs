//! Wrong ways through the islands, each of which is found by the steps that a station needs, left alone or with one figure.
//! They are made of `on_values`, and nothing is compared with the second implementation.

use reference::bytes::{values, Fields};
use reference::engine::packed_answer;
use reference::halted_lists::{different, made};
use reference::left_running::{alone, going, judged, one_figure, played};
use reference::model::{Answer, Life, Mark, Station, World};
use reference::on_values::{Apart, By, OnValues};
use reference::random::Random;
use reference::refusal::Refusal;

#[derive(Clone, Copy, PartialEq, Debug)]
enum Fault {
    Right,
    /// Whoever adopts stays on its island.
    AdoptsInPlace,
    /// Whoever adopts passes over the next island.
    AdoptsByTwo,
    /// The last island is spent by whoever would come to it.
    SpentEarly,
    /// The first pair of m in place of the largest.
    FirstOfM,
    /// The figure that m gave, on the island where the station was.
    KeepsItsIsland,
    /// In A an empty register counts as another figure.
    EmptyDiffers,
    NeverCommits,
    NeverDecides,
    /// A decision beside commits of all stations only.
    DecidesWithAll,
    /// The last two reads of B in one step.
    TwoReadsAtOnce,
}

use Fault::*;

/// Those that leave a station with one figure its decision, but not every other station.
const NOT_OF_ONE_FIGURE: [Fault; 5] = [AdoptsInPlace, AdoptsByTwo, SpentEarly, FirstOfM, KeepsItsIsland];

const OF_ONE_FIGURE: [Fault; 5] = [EmptyDiffers, NeverCommits, NeverDecides, DecidesWithAll, TwoReadsAtOnce];

struct Faulty(Fault);

/// What a station has with it; idle and ended ones take no step.
fn life(station: &Station) -> Option<Life> {
    match station {
        Station::WriteM(l) | Station::ReadM(l, _) | Station::WriteA(l) | Station::ReadA(l, _) => Some(*l),
        Station::WriteB(l, _) | Station::ReadB(l, _, _) => Some(*l),
        _ => None,
    }
}

/// Whoever does not decide goes to this island, if there is one.
fn adopted(world: &mut World, who: usize, life: Life, island: u8, total: u8) -> Answer {
    let last = world.last_island();
    if island > last {
        world.stations[who] = Station::Spent(Life { island: last, ..life });
        return Answer::Spent(last, life.carried, total);
    }
    world.stations[who] = Station::WriteM(Life { island, ..life });
    Answer::Adopted(island, life.carried, total)
}

impl Faulty {
    /// What the fault makes of a step that was right.
    fn bent(&self, world: &mut World, who: usize, before: Life, answer: Answer) -> Answer {
        let (n, last) = (world.m.len(), world.last_island());
        let carrying = |figure| Life { carried: figure, ..before };
        match (self.0, answer) {
            (AdoptsInPlace, Answer::Adopted(c, v, t)) => adopted(world, who, carrying(v), c - 1, t),
            (AdoptsByTwo, Answer::Adopted(c, v, t)) => adopted(world, who, carrying(v), c + 1, t),
            (SpentEarly, Answer::Adopted(c, v, t)) if c == last => adopted(world, who, carrying(v), c + 1, t),
            (KeepsItsIsland, Answer::Went(_, v, t)) => {
                world.stations[who] = Station::WriteA(carrying(v));
                Answer::Went(before.island, v, t)
            }
            (EmptyDiffers, Answer::Marked(_, v, t)) if (t as usize) < n => uncommitted(world, who, carrying(v), t),
            (NeverCommits, Answer::Marked(_, v, t)) => uncommitted(world, who, carrying(v), t),
            (NeverDecides, Answer::Decided(c, v, t)) => adopted(world, who, carrying(v), c + 1, t),
            (DecidesWithAll, Answer::Decided(c, v, t)) if (t as usize) < n => {
                adopted(world, who, carrying(v), c + 1, t)
            }
            (TwoReadsAtOnce, Answer::Read(_)) => match &world.stations[who] {
                Station::ReadB(_, _, collect) if collect.next + 1 == n => world.step(who).expect("it is going"),
                _ => answer,
            },
            _ => answer,
        }
    }
}

fn uncommitted(world: &mut World, who: usize, life: Life, total: u8) -> Answer {
    world.stations[who] = Station::WriteB(life, Mark::Adopt);
    Answer::Marked(Mark::Adopt, life.carried, total)
}

impl OnValues for Faulty {
    /// Every board passes for sound: what is wrong must be seen by the steps.
    fn opened(&self, f: Fields) -> Option<Apart> {
        Some(Apart { world: values(&f), aside: vec![] })
    }

    fn stepped(&self, apart: &mut Apart, station: u8, _: By) -> Result<u64, Refusal> {
        let world = &mut apart.world;
        let who = world.place(station)?;
        // A pair that is not the first to be met is hidden while it is read.
        let hidden = match &world.stations[who] {
            Station::ReadM(_, collect) if self.0 == FirstOfM && !collect.heard.is_empty() => Some(collect.next),
            _ => None,
        };
        let kept = hidden.and_then(|at| world.m[at].take());
        let before = life(&world.stations[who]);
        let answer = world.step(who);
        hidden.into_iter().for_each(|at| world.m[at] = kept);
        let answer = answer?;
        Ok(packed_answer(self.bent(world, who, before.expect("it took a step"), answer)))
    }
}

fn left_alone_finds(fault: Fault) -> bool {
    (0..3000).any(|seed| {
        let mut r = Random::new(seed);
        let count = r.between(1, 3);
        let figures = different(&mut r, count);
        let board = played(&Faulty(fault), &made(&mut r, &figures));
        let wrong = |station| judged(&board, station, &alone(&Faulty(fault), &board, station)).is_err();
        going(&Faulty(fault), &board).into_iter().any(wrong)
    })
}

fn one_figure_finds(fault: Fault) -> bool {
    (0..100).any(|seed| one_figure(&Faulty(fault), &made(&mut Random::new(seed), &[-5]), -5).is_err())
}

#[test]
fn what_is_right_passes() {
    assert!(!left_alone_finds(Right) && !one_figure_finds(Right));
}

#[test]
fn each_fault_is_found_by_a_station_left_alone() {
    for fault in NOT_OF_ONE_FIGURE.into_iter().chain(OF_ONE_FIGURE) {
        assert!(left_alone_finds(fault), "{fault:?}");
    }
}

#[test]
fn faults_are_found_with_one_figure() {
    for fault in OF_ONE_FIGURE {
        assert!(one_figure_finds(fault), "{fault:?}");
    }
    for fault in NOT_OF_ONE_FIGURE {
        assert!(!one_figure_finds(fault), "{fault:?}");
    }
}
