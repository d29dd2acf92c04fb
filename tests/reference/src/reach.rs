//! Every board that a small fresh one can come to, by any list of proposals and steps with the given figures. On two stations
//! the proposals are put in by hand: these are the boards that may have been saved.

use crate::bytes::Fields;
use crate::calls;
use crate::lists::Deeds;
use crate::starts;
use std::collections::HashSet;
use std::rc::Rc;

/// More than any start that is tried comes to: a wrong engine need not end.
const MOST: usize = 3_000_000;

/// Every board that a start comes to, by whatever a station does there; that answers whether it did something. It panics where
/// they do not end, so that none of them is left out silently.
pub fn every_board_from(start: Vec<u8>, does: impl Fn(&mut [u8], u8) -> bool) -> Vec<Rc<[u8]>> {
    let n = start[0];
    let mut found: Vec<Rc<[u8]>> = vec![start.into()];
    let mut known = HashSet::from([found[0].clone()]);
    let mut at = 0;
    while at < found.len() {
        assert!(found.len() < MOST, "a start comes to too many boards");
        for station in 1..=n {
            let mut board = found[at].to_vec();
            if does(&mut board, station) {
                let board: Rc<[u8]> = board.into();
                if known.insert(board.clone()) {
                    found.push(board);
                }
            }
        }
        at += 1;
    }
    found
}

/// Station i may propose `figures[i]` and no other; so the boards are few enough to name them all.
pub fn every_board(k: u8, figures: &[i32]) -> Vec<Rc<[u8]>> {
    every_board_from(starts::fresh(figures.len() as u8, k), |board, station| {
        starts::put_in(board, station, figures[station as usize - 1]) || calls::step(board, station).is_ok()
    })
}

/// What the calls that led to a board did, read off the board: a station that took a step has written its m.
pub fn deeds(board: &[u8]) -> Vec<Deeds> {
    let f = Fields::of_bytes(board);
    let one = |(r, m): (&crate::bytes::Record, &crate::bytes::Cell)| Deeds {
        proposed: (r.phase != 0).then_some(r.proposal),
        stepped: m.mark != 0,
        decided: (r.phase == 7).then_some(r.carried),
        spent: r.phase == 8,
    };
    f.records.iter().zip(&f.m).map(one).collect()
}
