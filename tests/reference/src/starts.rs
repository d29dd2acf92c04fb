//! Boards that runs start from: as a laying leaves them, or with figures put in. Those of two stations are made by hand, since
//! no laying gives them and no call puts figures in there; "fresh but for the two proposals" is how their runs start.
//! Relies on `model` and `bytes`; whatever plays a run from its start relies on it.

use crate::bytes::{fields, length, values, Fields};
use crate::engine::Engine;
use crate::model::{Station, World, TOO_FEW};
use crate::pairs::Pair;

/// "zero in every byte but n and K".
pub fn fresh(n: u8, k: u8) -> Vec<u8> {
    proposed(n, k, &[])
}

/// Fresh but for the proposals of these stations.
pub fn proposed(n: u8, k: u8, pairs: &[Pair]) -> Vec<u8> {
    let mut world = World::fresh(n as usize, k as usize);
    pairs.iter().for_each(|(station, figure)| world.put_in(*station as usize - 1, *figure));
    fields(&world).to_bytes()
}

/// The same with a figure for each station, in station order, as far as there are figures.
pub fn with_figures(n: u8, k: u8, figures: &[i32]) -> Vec<u8> {
    proposed(n, k, &(1..).zip(figures.iter().copied()).collect::<Vec<Pair>>())
}

/// An idle station of a sound board gets its figure, however many stations there are. Whether it was idle.
pub fn put_in(board: &mut [u8], station: u8, figure: i32) -> bool {
    let mut world = values(&Fields::of_bytes(board));
    let who = station as usize - 1;
    let idle = world.stations[who] == Station::Idle;
    if idle {
        world.put_in(who, figure);
        board.copy_from_slice(&fields(&world).to_bytes());
    }
    idle
}

/// What a start of two stations holds so that a list can be played from it: the first proposal of each. Of any other number of
/// stations it holds none, since the list's own calls put them in.
pub fn held(n: u8, proposals: impl IntoIterator<Item = Pair>) -> Vec<Pair> {
    let mut held: Vec<Pair> = Vec::new();
    for (station, figure) in proposals {
        let new = (1..=n).contains(&station) && held.iter().all(|(other, _)| *other != station);
        if n == TOO_FEW && new {
            held.push((station, figure));
        }
    }
    held
}

/// A board that the engine has laid, or the start by hand.
pub fn laid(engine: &dyn Engine, n: u8, k: u8, held: &[Pair]) -> Vec<u8> {
    if n == TOO_FEW {
        return proposed(n, k, held);
    }
    let mut board = vec![0; length(n, k)];
    engine.lay(&mut board, n, k);
    board
}
