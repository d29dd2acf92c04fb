//! The library's calls over lent bytes of any content and any length. A refused call alters no byte, because the
//! bytes are written only once the values are known.

use crate::bytes::{fields, length, values, Fields};
use crate::halts::Halts;
use crate::model::{Answer, Standing, World, TOO_FEW};
use crate::pairs::Pair;
use crate::refusal::Refusal;
use crate::sound::sound;

pub const MOST_STEPS: usize = 65_536;
pub const LONGEST_SHOW: usize = 512;

/// 8 and 9 of a head.
fn counts(n: u8, k: u8) -> Result<(), Refusal> {
    if !(1..=16).contains(&n) {
        return Err(Refusal::StationCount);
    }
    if !(2..=64).contains(&k) {
        return Err(Refusal::IslandCount);
    }
    Ok(())
}

/// 8 and 9 of a laying, which allows "n = 1 or 3 to 16, else 8".
pub fn laid_counts(n: u8, k: u8) -> Result<(), Refusal> {
    if n == TOO_FEW {
        return Err(Refusal::StationCount);
    }
    counts(n, k)
}

/// 7 to 10, with n and K as given to a laying, or else from the head.
pub fn measured(board: &[u8], given: Option<(u8, u8)>) -> Result<(), Refusal> {
    if board.len() < 8 {
        return Err(Refusal::BoardTooShort);
    }
    let (n, k) = given.unwrap_or((board[0], board[1]));
    given.map_or_else(|| counts(n, k), |(n, k)| laid_counts(n, k))?;
    if board.len() != length(n, k) {
        return Err(Refusal::BoardLength);
    }
    Ok(())
}

/// 7 to 11, and what the board means.
fn opened(board: &[u8]) -> Result<World, Refusal> {
    measured(board, None)?;
    let raw = Fields::of_bytes(board);
    if !sound(&raw) {
        return Err(Refusal::NotSound);
    }
    Ok(values(&raw))
}

fn closed(board: &mut [u8], world: &World) {
    board.copy_from_slice(&fields(world).to_bytes());
}

pub fn check(board: &[u8]) -> Result<(), Refusal> {
    opened(board).map(|_| ())
}

pub fn lay(board: &mut [u8], n: u8, k: u8) -> Result<(), Refusal> {
    measured(board, Some((n, k)))?;
    closed(board, &World::fresh(n as usize, k as usize));
    Ok(())
}

pub fn propose(board: &mut [u8], station: u8, figure: i32) -> Result<(), Refusal> {
    let mut world = opened(board)?;
    world.propose(station, figure)?;
    closed(board, &world);
    Ok(())
}

/// "All are accepted or none." With no pair nothing is proposed, and nothing refused.
pub fn propose_all(board: &mut [u8], pairs: &[Pair]) -> Result<(), Refusal> {
    let mut world = opened(board)?;
    world.propose_all(pairs)?;
    closed(board, &world);
    Ok(())
}

pub fn step(board: &mut [u8], station: u8) -> Result<Answer, Refusal> {
    let mut world = opened(board)?;
    let who = world.place(station)?;
    let answer = world.step(who)?;
    closed(board, &world);
    Ok(answer)
}

/// Steps taken, and steps refused and passed over. The board is opened once for the whole run.
pub fn run(board: &mut [u8], stations: &[u8]) -> Result<(usize, usize), Refusal> {
    if stations.len() > MOST_STEPS {
        return Err(Refusal::TooManySteps);
    }
    let mut world = opened(board)?;
    let taken = stations.iter().filter(|s| world.place(**s).and_then(|who| world.step(who)).is_ok()).count();
    closed(board, &world);
    Ok((taken, stations.len() - taken))
}

/// Rounds played, and all stations that stand decided afterwards. No round is played before all were looked at.
pub fn rounds(board: &mut [u8], halts: &Halts) -> Result<(usize, usize), Refusal> {
    let mut world = opened(board)?;
    if world.amid_collect() {
        return Err(Refusal::AmidCollect);
    }
    if !halts.fit(world.stations.len()) {
        return Err(Refusal::BadRound);
    }
    halts.rounds.iter().for_each(|suspended| world.round(suspended));
    closed(board, &world);
    Ok((halts.rounds.len(), world.decided()))
}

/// What `show` says of one station, to that station, and the steps that it took.
pub fn standing(board: &[u8], station: u8) -> Result<(Standing, u16), Refusal> {
    let world = opened(board)?;
    let who = world.place(station)?;
    Ok((world.stations[who].standing(), world.steps[who]))
}

pub fn show(board: &[u8]) -> Result<String, Refusal> {
    let world = opened(board)?;
    let shown: Vec<String> = world.stations.iter().enumerate().map(|(who, s)| shown(who + 1, s.standing())).collect();
    let line = format!("(stations {})", shown.join(" "));
    if line.len() > LONGEST_SHOW {
        return Err(Refusal::ShowTooLong);
    }
    Ok(line)
}

fn shown(number: usize, standing: Standing) -> String {
    match standing {
        Standing::Idle => format!("({number} idle)"),
        Standing::Going(c, v) => format!("({number} going {c} {v})"),
        Standing::Decided(c, v) => format!("({number} decided {c} {v})"),
        Standing::Spent(c, v) => format!("({number} spent {c} {v})"),
    }
}
