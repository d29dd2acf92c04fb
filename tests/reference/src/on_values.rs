//! Engines on values of which some parts are wrong: how a board is taken apart, tested and put together, what a step does
//! and what is told. The calls that follow from these parts are written here once, for every suite of faults.

use crate::bytes::{fields, Fields};
use crate::calls::{measured, MOST_STEPS};
use crate::engine::{packed_standing, Engine, Reference};
use crate::halts::Halts;
use crate::model::World;
use crate::pairs::of_words;
use crate::refusal::Refusal;

/// A board taken apart. Wrong counts stand aside, one for each station, and the world's own do not matter then.
pub struct Apart {
    pub world: World,
    pub aside: Vec<u16>,
}

/// By what call a step is taken.
#[derive(Clone, Copy, PartialEq)]
pub enum By {
    Step,
    Run,
    Rounds,
}

/// A refusal is answered by its number, everything else as the call packs it.
pub trait OnValues {
    /// `None` if the board does not pass for sound.
    fn opened(&self, f: Fields) -> Option<Apart>;

    fn closed(&self, apart: &Apart) -> Fields {
        fields(&apart.world)
    }

    fn proposed(&self, apart: &mut Apart, station: u8, figure: i32) -> Result<(), Refusal> {
        apart.world.propose(station, figure)
    }

    fn stepped(&self, apart: &mut Apart, station: u8, by: By) -> Result<u64, Refusal>;

    fn stands(&self, apart: &Apart, station: u8) -> Result<u64, Refusal> {
        let who = apart.world.place(station)?;
        Ok(packed_standing((apart.world.stations[who].standing(), apart.world.steps[who])))
    }
}

fn taken_apart<T: OnValues>(on: &T, board: &[u8]) -> Result<Apart, Refusal> {
    measured(board, None)?;
    on.opened(Fields::of_bytes(board)).ok_or(Refusal::NotSound)
}

fn told(answer: Result<u64, Refusal>) -> u64 {
    answer.unwrap_or_else(|refusal| refusal.number() as u64)
}

/// What a call makes of a board is written back also where it is refused: a wrong one may alter it then.
fn made<T: OnValues>(on: &T, board: &mut [u8], call: impl FnOnce(&mut Apart) -> Result<u64, Refusal>) -> u64 {
    told(taken_apart(on, board).and_then(|mut apart| {
        let answer = call(&mut apart);
        board.copy_from_slice(&on.closed(&apart).to_bytes());
        answer
    }))
}

impl<T: OnValues> Engine for T {
    fn rest(&self) -> &dyn Engine {
        &Reference
    }

    fn propose(&self, board: &mut [u8], station: u8, figure: i32) -> u8 {
        made(self, board, |apart| self.proposed(apart, station, figure).map(|()| 0)) as u8
    }

    fn propose_all(&self, board: &mut [u8], pairs: &mut [u64]) -> u8 {
        let pairs = of_words(pairs);
        let answer = made(self, board, |apart| {
            apart.world.tried(&pairs)?;
            pairs.iter().try_for_each(|(station, figure)| self.proposed(apart, *station, *figure)).map(|()| 0)
        });
        answer as u8
    }

    fn check(&self, board: &mut [u8]) -> u8 {
        told(taken_apart(self, board).map(|_| 0)) as u8
    }

    fn step(&self, board: &mut [u8], station: u8) -> u64 {
        made(self, board, |apart| self.stepped(apart, station, By::Step))
    }

    fn standing(&self, board: &mut [u8], station: u8) -> u64 {
        told(taken_apart(self, board).and_then(|apart| self.stands(&apart, station)))
    }

    fn run(&self, board: &mut [u8], stations: &mut [u8]) -> u64 {
        if stations.len() > MOST_STEPS {
            return Refusal::TooManySteps.number() as u64;
        }
        made(self, board, |apart| {
            let taken = stations.iter().filter(|station| self.stepped(apart, **station, By::Run).is_ok()).count();
            Ok((taken as u64) << 8 | ((stations.len() - taken) as u64) << 32)
        })
    }

    fn rounds(&self, board: &mut [u8], most: u8, named: &mut [u8]) -> u64 {
        let halts = Halts::of_bytes(most, named);
        made(self, board, |apart| {
            let n = apart.world.stations.len();
            if apart.world.amid_collect() {
                return Err(Refusal::AmidCollect);
            }
            if !halts.fit(n) {
                return Err(Refusal::BadRound);
            }
            for station in halts.single_steps(n as u8) {
                let _ = self.stepped(apart, station, By::Rounds);
            }
            Ok((apart.world.decided() as u64) << 8 | (halts.rounds.len() as u64) << 16)
        })
    }
}
