//! A sheet played by whoever gets its own tape wrong, as `own` lists it.

use crate::own::OwnFault::{self, *};
use reference::calls::{laid_counts, MOST_STEPS};
use reference::halts::Halts;
use reference::model::{Standing, World};
use reference::refusal::Refusal;
use reference::sheet::{self, expanded, expansion, Form, Item};

/// A sheet under way: the board that was laid last, and the tape so far.
struct Player {
    fault: OwnFault,
    board: Option<World>,
    boards: usize,
    tape: Vec<String>,
    ended: bool,
}

impl OwnFault {
    /// The lines of the tape, at least so many if there are as many.
    pub fn tape(self, sheet: &[u8], lines: usize) -> Vec<String> {
        let mut player = Player { fault: self, board: None, boards: 0, tape: vec![], ended: false };
        let mut all = sheet::lines(sheet);
        if self == LastLineNeedsItsLf && !sheet.ends_with(b"\n") {
            all.pop();
        }
        for line in all {
            // A tape that begins anew has no line that stays.
            if player.ended || player.tape.len() >= lines && self != BoardBeginsATape {
                break;
            }
            player.line(line);
        }
        player.tape
    }
}

/// The same items, each of them once.
fn once(items: &[Item]) -> Vec<Item> {
    items
        .iter()
        .flat_map(|item| if let Item::Times(_, inner) = item { once(inner) } else { vec![item.clone()] })
        .collect()
}

/// A line that is too long, cut behind an item.
fn cut(line: &[u8]) -> Option<Form> {
    let at = line[..sheet::LONGEST_LINE].iter().rposition(|b| *b == b' ')?;
    sheet::read(&[&line[..at], b")"].concat()).ok()
}

impl Player {
    fn line(&mut self, line: &[u8]) {
        let form = match sheet::read(line) {
            Err(Refusal::LineTooLong) if self.fault == LongLinesPlay => cut(line).ok_or(Refusal::NoForm),
            form => form,
        };
        let refused = form.and_then(|form| self.form(form)).is_err();
        self.ended |= refused && self.fault == EndsAtARefusedLine;
    }

    fn form(&mut self, form: Form) -> Result<(), Refusal> {
        if let Form::Board(n, k) = form {
            return self.laid(n, k);
        }
        if self.board.is_none() {
            return Err(Refusal::NoBoardYet);
        }
        match form {
            Form::Propose(station, figure) => self.proposed(station, figure),
            Form::ProposeAll(pairs) => {
                let world = self.board.as_mut().expect("it is laid");
                if self.fault == PairsBeforeAFault && world.tried(&pairs).is_err() {
                    return pairs.iter().try_for_each(|(station, figure)| world.propose(*station, *figure));
                }
                if self.fault == PairsNotPutIn {
                    Ok(())
                } else {
                    world.propose_all(&pairs)
                }
            }
            Form::Steps(items) => self.ran(&items),
            Form::Rounds(halts) => self.rounds(&halts),
            Form::Show | Form::Board(..) => Ok(()),
        }
    }

    fn laid(&mut self, n: u8, k: u8) -> Result<(), Refusal> {
        if let Err(refusal) = laid_counts(n, k) {
            self.board = self.board.take().filter(|_| self.fault != RefusedLayingForgets);
            return Err(refusal);
        }
        self.boards += 1;
        self.board = Some(World::fresh(n as usize, k as usize));
        match self.fault {
            BoardBeginsATape => self.tape.clear(),
            FirstBoardOnly => self.ended = self.boards > 1,
            _ => {}
        }
        Ok(())
    }

    fn proposed(&mut self, station: u8, figure: i32) -> Result<(), Refusal> {
        let fresh = World::fresh(1, 2);
        let world = self.board.as_mut().expect("it is laid");
        let who = world.place(station)?;
        if self.fault == RefusedProposalReplaces {
            world.stations[who] = fresh.stations[0].clone();
        }
        world.propose(station, figure)
    }

    fn ran(&mut self, items: &[Item]) -> Result<(), Refusal> {
        let size = expansion(items);
        let most = MOST_STEPS as u128;
        match self.fault {
            ItemsOnce if size <= most => self.steps(&expanded(&once(items))),
            MostIsRefused if size == most => return Err(Refusal::TooManySteps),
            SixAddsTheFirst if (most..100_000).contains(&size) => self.steps(&expanded(items)[..MOST_STEPS]),
            SixAddsAll if (most..100_000).contains(&size) => self.steps(&expanded(items)),
            _ if size > most => return Err(Refusal::TooManySteps),
            _ => self.steps(&expanded(items)),
        }
        Ok(())
    }

    fn rounds(&mut self, halts: &Halts) -> Result<(), Refusal> {
        let world = self.board.as_ref().expect("it is laid");
        let n = world.stations.len();
        if world.amid_collect() && self.fault != RoundsAmidCollects {
            return Err(Refusal::AmidCollect);
        }
        if !halts.fit(n) {
            if self.fault == RoundsBeforeAFault {
                let one = |named: &Vec<u8>| Halts { most: halts.most, rounds: vec![named.clone()] };
                let fit: Vec<Halts> = halts.rounds.iter().map(one).take_while(|one| one.fit(n)).collect();
                fit.iter().for_each(|one| self.steps(&one.single_steps(n as u8)));
            }
            return Err(Refusal::BadRound);
        }
        let taped = self.tape.len();
        match self.fault {
            RoundsNotPlayed => {}
            SuspendedStepToo => {
                let nobody = Halts { most: 0, rounds: vec![vec![]; halts.rounds.len()] };
                self.steps(&nobody.single_steps(n as u8));
            }
            RoundsOfSingleSteps | RoundsByThePaper | RoundsBackwards => {
                halts.rounds.iter().for_each(|named| self.other_round(n as u8, named));
            }
            _ => self.steps(&halts.single_steps(n as u8)),
        }
        if self.fault == RoundsAddNothing {
            self.tape.truncate(taped);
        }
        Ok(())
    }

    fn other_round(&mut self, n: u8, named: &[u8]) {
        let turns: Vec<u8> = (1..=n).filter(|station| !named.contains(station)).collect();
        let collect = |station: &u8| vec![*station; n as usize];
        match self.fault {
            RoundsOfSingleSteps => self.steps(&turns),
            RoundsByThePaper => {
                self.steps(&turns);
                self.steps(&turns.iter().flat_map(collect).collect::<Vec<u8>>());
            }
            _ => self.steps(&turns.iter().rev().flat_map(|s| vec![*s; n as usize + 1]).collect::<Vec<u8>>()),
        }
    }

    fn steps(&mut self, stations: &[u8]) {
        let world = self.board.as_mut().expect("it is laid");
        for station in stations {
            let who = world.place(*station);
            let island = who.map_or(0, |who| island(world, who));
            match who.and_then(|who| world.step(who)) {
                Ok(answer) if self.fault != FirstStationNotTaped || *station > 1 => {
                    self.tape.push(self.fault.said(*station, answer, island))
                }
                Ok(_) => {}
                Err(Refusal::NoSuchStation) if self.fault == StepsOfNobodyLeaveALine => {
                    self.tape.push(format!("({station} refused 12)"))
                }
                Err(refusal) if self.fault == RefusedStepsLeaveALine => {
                    self.tape.push(format!("({station} refused {})", refusal.number()))
                }
                Err(_) => {}
            }
        }
    }
}

fn island(world: &World, who: usize) -> u8 {
    match world.stations[who].standing() {
        Standing::Going(c, _) => c,
        _ => 0,
    }
}
