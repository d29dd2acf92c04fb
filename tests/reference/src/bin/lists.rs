//! lists PROGRAM COUNT SEED: demand 3 on made lists, by the calls of this package and by what the program prints; and that
//! each answer of those calls tells the filled registers that were met. Lists of two stations are played from a start that
//! holds their figures, which no sheet lays: those the program is not asked.
//! With `-` for the program only the calls of this package are asked. A count of 0 goes on for ever. A fourth argument
//! `three` adds every board that three stations can come to, some 1.5 million and half a minute.

use reference::engine::Reference;
use reference::halts::Halts;
use reference::lists::{judge, order_for, play, sequential, Call, Deeds, List, Played};
use reference::made_lists::make;
use reference::model::{Standing, TOO_FEW};
use reference::pairs;
use reference::program;
use reference::random::Random;
use reference::reach::{deeds, every_board};

#[derive(Default)]
struct Tally {
    passed: u64,
    failed: u64,
    decided: u64,
    undecided: u64,
    spent_beside: u64,
    calls: u64,
    reads: u64,
    totals: u64,
}

impl Tally {
    fn take(&mut self, name: &str, deeds: &[Deeds], verdict: Result<Option<i32>, String>) {
        match verdict {
            Ok(None) => self.undecided += 1,
            Ok(Some(_)) => {
                self.decided += 1;
                self.spent_beside += deeds.iter().any(|d| d.spent) as u64;
            }
            Err(why) => {
                self.failed += 1;
                println!("{name}: {why}");
                return;
            }
        }
        self.passed += 1;
    }

    /// What is wrong with a list beside its decisions: the answers tell other registers than were met, or a line is not its
    /// single calls.
    fn take_answers(&mut self, name: &str, played: &Played) {
        self.reads += played.recount.reads;
        self.totals += played.recount.totals;
        match played.wrong() {
            None => self.passed += 1,
            Some(why) => {
                self.failed += 1;
                println!("{name}: {why}");
            }
        }
    }

    fn print(&self, whose: &str) {
        println!(
            "{whose}: {} calls, {} lists with a decision, {} of them beside a spent station, {} without; {} failed",
            self.calls, self.decided, self.spent_beside, self.undecided, self.failed
        );
        if self.totals > 0 {
            println!("their {} reads and {} totals were counted once more", self.reads, self.totals);
        }
    }
}

/// A list as lines. A line of steps has those of one station only, so that S tells whether that station stepped. Before
/// rounds stands a show, which tells whom they will step. A show has no call.
fn lines(list: &List) -> Vec<(String, Option<Call>)> {
    let mut out = vec![(format!("(board {} {})", list.n, list.k), None)];
    let show = || ("(show)".to_string(), None);
    for group in list.calls.chunk_by(|a, b| a == b && matches!(a, Call::Step(_))) {
        let text = match &group[0] {
            Call::Lay(n, k) => format!("(board {n} {k})"),
            Call::Propose(i, v) => format!("(propose {i} {v})"),
            Call::ProposeAll(all) => pairs::line(all),
            // 255 is no number of a sheet; 99 is refused alike.
            Call::Step(i) => format!("(steps (times {} {}))", group.len(), i.min(&99)),
            Call::Rounds(halts) => {
                out.push(show());
                halts.to_line()
            }
        };
        out.push((text, Some(group[0].clone())));
    }
    out.push(show());
    out
}

/// What the program's answers to those lines say of the stations.
fn deeds_of(list: &List, lines: &[(String, Option<Call>)], printed: &[&str]) -> Option<Vec<Deeds>> {
    let mut deeds = vec![Deeds::default(); list.n as usize];
    let mut shown = vec![Standing::Idle; list.n as usize];
    for ((_, call), answer) in lines.iter().zip(printed) {
        match call {
            None if answer.starts_with("(stations ") => shown = standings(answer)?,
            // Only layings that are refused stand in a list.
            Some(Call::Lay(..)) if !answer.starts_with("(refused ") => return None,
            Some(Call::Propose(i, v)) if answer.starts_with("(proposed ") => {
                deeds.get_mut(*i as usize - 1)?.proposed = Some(*v)
            }
            Some(Call::ProposeAll(all)) if answer.starts_with("(proposed ") => {
                for (i, v) in all {
                    deeds.get_mut((*i as usize).checked_sub(1)?)?.proposed = Some(*v);
                }
            }
            Some(Call::Step(i)) if answer.starts_with("(ran ") && !answer.starts_with("(ran 0 ") => {
                deeds.get_mut(*i as usize - 1)?.stepped = true
            }
            Some(Call::Rounds(halts)) if answer.starts_with("(played ") => stepped_by(halts, &shown, &mut deeds),
            _ => {}
        }
    }
    for (d, standing) in deeds.iter_mut().zip(standings(printed.last()?)?) {
        d.decided = decided(standing);
        d.spent = matches!(standing, Standing::Spent(..));
    }
    Some(deeds)
}

/// A going station takes a step unless every round suspends it.
fn stepped_by(halts: &Halts, shown: &[Standing], deeds: &mut [Deeds]) {
    for (at, d) in deeds.iter_mut().enumerate() {
        let free = halts.rounds.iter().any(|named| !named.contains(&(at as u8 + 1)));
        d.stepped |= free && matches!(shown.get(at), Some(Standing::Going(..)));
    }
}

fn decided(standing: Standing) -> Option<i32> {
    if let Standing::Decided(_, v) = standing {
        Some(v)
    } else {
        None
    }
}

/// How each station stands by a shown line.
fn standings(line: &str) -> Option<Vec<Standing>> {
    let inside = line.strip_prefix("(stations (")?.strip_suffix("))")?;
    let one = |part: &str| {
        let words: Vec<&str> = part.split(' ').collect();
        match words.as_slice() {
            [_, "idle"] => Some(Standing::Idle),
            [_, "going", c, v] => Some(Standing::Going(c.parse().ok()?, v.parse().ok()?)),
            [_, "decided", c, v] => Some(Standing::Decided(c.parse().ok()?, v.parse().ok()?)),
            [_, "spent", c, v] => Some(Standing::Spent(c.parse().ok()?, v.parse().ok()?)),
            _ => None,
        }
    };
    inside.split(") (").map(one).collect()
}

/// A sequential run played by the program.
fn sequential_by(program: &str, n: u8, k: u8, order: &[(u8, i32)]) -> Vec<Option<i32>> {
    let turn =
        |(i, v): &(u8, i32)| format!("(propose {i} {v})\n(steps (times {} {i}))\n", 3 * (n as usize + 1) * k as usize);
    let sheet = format!("(board {n} {k})\n{}(show)\n", order.iter().map(turn).collect::<String>());
    let printed = program::run(program, sheet.as_bytes(), program::WHOLE).map(|e| e.printed).unwrap_or_default();
    let text = String::from_utf8_lossy(&printed).into_owned();
    let shown = text.lines().last().and_then(standings).unwrap_or_default();
    order.iter().map(|(i, _)| shown.get(*i as usize - 1).and_then(|s| decided(*s))).collect()
}

/// Several lists in one sheet, then each list's order.
fn by_program(tally: &mut Tally, program: &str, lists: &[(u64, List)]) {
    let parts: Vec<Vec<(String, Option<Call>)>> = lists.iter().map(|(_, list)| lines(list)).collect();
    let sheet: String = parts.iter().flatten().map(|(text, _)| format!("{text}\n")).collect();
    let printed = program::run(program, sheet.as_bytes(), program::WHOLE).map(|e| e.printed).unwrap_or_default();
    let text = String::from_utf8_lossy(&printed).into_owned();
    let mut left: &[&str] = &text.lines().collect::<Vec<_>>();
    for ((seed, list), part) in lists.iter().zip(&parts) {
        let (mine, rest) = left.split_at(part.len().min(left.len()));
        left = rest;
        let name = format!("program, seed {seed}");
        tally.calls += list.calls.len() as u64;
        let Some(deeds) = deeds_of(list, part, mine) else {
            tally.take(&name, &[], Err("its answers cannot be read".to_string()));
            continue;
        };
        let run = |n: u8, k: u8, order: &[(u8, i32)]| sequential_by(program, n, k, order);
        let verdict = judge(list.n, list.k, &deeds, &mut Random::new(*seed), &run);
        tally.take(&name, &deeds, verdict);
    }
}

fn by_calls(tally: &mut Tally, seed: u64, list: &List) {
    tally.calls += list.calls.len() as u64;
    let (played, name) = (play(&Reference, list), format!("calls, seed {seed}"));
    let verdict = judge(list.n, list.k, &played.deeds, &mut Random::new(seed), &sequential);
    tally.take(&name, &played.deeds, verdict);
    tally.take_answers(&name, &played);
}

/// In every sequential run from a fresh board each station decides the first one's figure, decision or none.
fn any_order(tally: &mut Tally, seed: u64) {
    let mut r = Random::new(seed ^ 0x5EED);
    let (n, k) = r.size();
    let mut deeds = vec![Deeds::default(); n as usize];
    for d in deeds.iter_mut() {
        *d = Deeds { proposed: Some(r.figure()), stepped: !r.once_in(4), ..*d };
    }
    let Some(first) = deeds.iter().find(|d| d.stepped).and_then(|d| d.proposed) else { return };
    let order = order_for(&deeds, first, &mut r).expect("a station that stepped proposed it");
    let good = sequential(n, k, &order).iter().all(|d| *d == Some(first));
    let verdict = if good { Ok(Some(first)) } else { Err(format!("{order:?} does not decide {first}")) };
    tally.take(&format!("sequential, seed {seed}"), &deeds, verdict);
}

/// The claim on every board that two or three stations can come to, by whatever list.
fn all_lists(tally: &mut Tally, k: u8, figures: &[i32]) {
    let boards = every_board(k, figures);
    println!("{} boards reached with K = {k} and figures {figures:?}", boards.len());
    for board in boards {
        let deeds = deeds(&board);
        let verdict = judge(figures.len() as u8, k, &deeds, &mut Random::new(1), &sequential);
        tally.take(&format!("K = {k}, figures {figures:?}"), &deeds, verdict);
    }
}

/// The tallies together, with their counts in the last line.
fn told(tallies: [&Tally; 4]) -> ! {
    let passed: u64 = tallies.iter().map(|tally| tally.passed).sum();
    let failed: u64 = tallies.iter().map(|tally| tally.failed).sum();
    println!("{passed} passed, {failed} failed");
    std::process::exit((failed > 0) as i32);
}

/// Lists that the program plays as one sheet, as many as fit.
struct Waiting<'a> {
    program: &'a str,
    lists: Vec<(u64, List)>,
    size: usize,
}

impl Waiting<'_> {
    fn push(&mut self, sheets: &mut Tally, seed: u64, list: List) {
        let bytes: usize = lines(&list).iter().map(|(text, _)| text.len() + 1).sum();
        if self.size + bytes > reference::sheet::LONGEST_SHEET {
            self.play(sheets);
        }
        self.size += bytes;
        self.lists.push((seed, list));
    }

    fn play(&mut self, sheets: &mut Tally) {
        by_program(sheets, self.program, &self.lists);
        self.lists.clear();
        self.size = 0;
    }
}

fn main() {
    let arguments: Vec<String> = std::env::args().collect();
    let [_, program, count, seed, more @ ..] = arguments.as_slice() else {
        eprintln!("lists PROGRAM COUNT SEED [three], or - for PROGRAM");
        std::process::exit(2);
    };
    let (count, first): (u64, u64) = (count.parse().expect("a number"), seed.parse().expect("a number"));
    println!("seeds from {first}");
    let (mut calls, mut sheets, mut orders) = (Tally::default(), Tally::default(), Tally::default());
    let mut reached = Tally::default();
    for (k, figures) in [(2, [3, 7]), (2, [7, 3]), (2, [5, 5]), (2, [5, -5]), (4, [3, 7])] {
        all_lists(&mut reached, k, &figures);
    }
    if more == ["three"] {
        all_lists(&mut reached, 2, &[7, 3, 5]);
    }
    let mut waiting = Waiting { program, lists: Vec::new(), size: 0 };
    for at in 0.. {
        if count != 0 && at == count {
            break;
        }
        let seed = first.wrapping_add(at);
        let list = make(seed);
        by_calls(&mut calls, seed, &list);
        any_order(&mut orders, seed);
        if program != "-" && list.n != TOO_FEW {
            waiting.push(&mut sheets, seed, list);
        }
        if (at + 1) % 1000 == 0 && count == 0 {
            println!("to seed {seed}: {} failed", calls.failed + sheets.failed + orders.failed);
        }
    }
    if program != "-" {
        waiting.play(&mut sheets);
        sheets.print("the program's sheets");
    }
    calls.print("single calls");
    orders.print("sequential runs");
    reached.print("all boards reached");
    told([&calls, &sheets, &orders, &reached])
}
