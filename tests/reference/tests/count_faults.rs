//! Wrong counts of steps, each of which the comparison finds: what a call makes of a count, what soundness asks of it, and
//! what a standing tells of it.

use reference::bytes::{fields, values, Fields, Record};
use reference::compare;
use reference::count_batches::SIZES;
use reference::engine::{packed_answer, packed_standing};
use reference::model::Answer;
use reference::on_values::{Apart, By, OnValues};
use reference::refusal::Refusal;
use reference::sound::{most_steps, sound};

#[derive(Clone, Copy, PartialEq, Debug)]
enum Fault {
    None,

    // What calls make of a count.
    WritesNotCounted,
    ReadsNotCounted,
    LastReadsNotCounted,
    /// The step that decides or is spent.
    EndsNotCounted,
    /// Of stations that have decided or are spent.
    RefusedCounted,
    /// The same within runs and rounds only.
    PassedOverCounted,
    RunsNotCounted,
    RoundsNotCounted,
    WholeStepsCountOnce,
    ProposalCounted,
    EachIslandAnew,
    EndedAnew,
    NotCarried,
    StopsAt255,
    MostSignificantFirst,
    FirstStationCounts,

    // What soundness asks of it: the most is one more, one less, or without the present pass, in one phase.
    Loosened(u8),
    Tightened(u8),
    NoPassIn(u8),
    PositionLeftOut,
    WriteLeftOut,
    IslandLeftOut,
    OneIslandMore,
    AsManyAsTheBoardHas,
    PassWithoutWrites,
    NoMost,
    MostInAByte,
    HighByteNotTested,
    Byte22NotTested,
    Byte23NotTested,
    IdleMayCount,
    /// The steps of the present pass are asked for, or those of every island.
    WholePresentPass,
    NoIslandPassedOver,

    // What a standing tells of it.
    StandsWithoutSteps,
    StandsWithAByte,
    StandsWithElevenBits,
    StandsWithTheMost,
    StandsWithTheFirst,
}

use Fault::*;

#[rustfmt::skip]
const COUNTING: [Fault; 16] = [
    WritesNotCounted, ReadsNotCounted, LastReadsNotCounted, EndsNotCounted, RefusedCounted, PassedOverCounted,
    RunsNotCounted, RoundsNotCounted, WholeStepsCountOnce, ProposalCounted, EachIslandAnew, EndedAnew, NotCarried,
    StopsAt255, MostSignificantFirst, FirstStationCounts,
];

const STANDING: [Fault; 5] =
    [StandsWithoutSteps, StandsWithAByte, StandsWithElevenBits, StandsWithTheMost, StandsWithTheFirst];

/// Those of soundness, phase by phase where they have one.
fn of_soundness() -> Vec<Fault> {
    let mut all = vec![PositionLeftOut, WriteLeftOut, IslandLeftOut, OneIslandMore, AsManyAsTheBoardHas];
    all.extend([PassWithoutWrites, NoMost, MostInAByte, HighByteNotTested, Byte22NotTested, Byte23NotTested]);
    all.extend([IdleMayCount, WholePresentPass, NoIslandPassedOver]);
    all.extend((1..=8).flat_map(|phase| [Loosened(phase), Tightened(phase)]));
    all.extend((2..=8).map(NoPassIn));
    all
}

impl Fault {
    /// The most steps, in the fault's eyes.
    fn most(self, n: u8, k: u8, r: &Record) -> u32 {
        let most = most_steps(n, r);
        let pass = 3 * (n as u32 + 1);
        let islands = pass * r.island as u32;
        let collects = matches!(r.phase, 2 | 4 | 6);
        match self {
            Loosened(phase) if r.phase == phase => most + 1,
            Tightened(phase) if r.phase == phase => most.saturating_sub(1),
            NoPassIn(phase) if r.phase == phase => islands,
            PositionLeftOut => most - r.next as u32,
            WriteLeftOut => most - collects as u32,
            IslandLeftOut => most - islands,
            OneIslandMore => most + pass,
            AsManyAsTheBoardHas => pass * k as u32,
            PassWithoutWrites => most - 3 * r.island as u32,
            NoMost => u32::MAX,
            MostInAByte => most & 0xFF,
            _ => most,
        }
    }

    fn fits(self, n: u8, k: u8, r: &Record) -> bool {
        let steps = self.read(r.steps) as u32;
        if r.phase == 0 {
            return self == IdleMayCount || steps == 0;
        }
        let tested = if self == HighByteNotTested { steps & 0xFF } else { steps };
        let exact = match self {
            WholePresentPass => steps >= most_steps(n, &Record { island: 0, ..*r }),
            NoIslandPassedOver => steps == most_steps(n, r),
            _ => true,
        };
        exact && tested <= self.most(n, k, r)
    }

    /// The bytes behind the count.
    fn tail(self, [one, two]: [u8; 2]) -> bool {
        (one == 0 || self == Byte22NotTested) && (two == 0 || self == Byte23NotTested)
    }

    /// A count from its two bytes, and back.
    fn read(self, steps: u16) -> u16 {
        if self == MostSignificantFirst {
            steps.swap_bytes()
        } else {
            steps
        }
    }

    /// A board with too high a count may have passed for sound, so that there is none above it.
    fn raised(self, steps: u16) -> u16 {
        let one_more = steps.wrapping_add(1);
        match self {
            NotCarried => steps & 0xFF00 | one_more & 0xFF,
            StopsAt255 if steps >= 255 => steps,
            _ => one_more,
        }
    }

    fn counted(self, steps: u16, answer: Result<Answer, Refusal>, by: By) -> u16 {
        let kept = match (self, answer) {
            (WritesNotCounted, Ok(Answer::Wrote)) | (ReadsNotCounted, Ok(Answer::Read(_))) => true,
            (LastReadsNotCounted, Ok(answer)) => !matches!(answer, Answer::Wrote | Answer::Read(_)),
            (EndsNotCounted, Ok(answer)) => matches!(answer, Answer::Decided(..) | Answer::Spent(..)),
            (RunsNotCounted, _) => by == By::Run,
            (RoundsNotCounted, _) => by == By::Rounds,
            (WholeStepsCountOnce, Ok(Answer::Read(_))) => by == By::Rounds,
            (RefusedCounted, Err(refusal)) => refusal == Refusal::Idle,
            (PassedOverCounted, Err(refusal)) => refusal == Refusal::Idle || by == By::Step,
            _ => answer.is_err(),
        };
        match (self, answer) {
            (EachIslandAnew, Ok(Answer::Adopted(..))) => 0,
            (EndedAnew, Ok(Answer::Decided(..) | Answer::Spent(..))) => 0,
            _ if kept => steps,
            _ => self.raised(steps),
        }
    }

    fn told(self, n: u8, r: &Record, counts: &[u16], who: usize) -> u64 {
        let steps = counts[who] as u64;
        match self {
            StandsWithoutSteps => 0,
            StandsWithAByte => steps & 0xFF,
            StandsWithElevenBits => steps & 0x7FF,
            StandsWithTheMost => most_steps(n, r) as u64,
            StandsWithTheFirst => counts[0] as u64,
            _ => steps,
        }
    }
}

/// The counts stand aside; the world's own are all 0.
struct Faulty(Fault);

impl OnValues for Faulty {
    fn opened(&self, mut f: Fields) -> Option<Apart> {
        let fit = f.records.iter().all(|r| self.0.fits(f.n, f.k, r) && self.0.tail(r.tail));
        let aside = f.records.iter().map(|r| self.0.read(r.steps)).collect();
        f.records.iter_mut().for_each(|r| *r = Record { steps: 0, tail: [0; 2], ..*r });
        (fit && sound(&f)).then(|| Apart { world: values(&f), aside })
    }

    fn closed(&self, apart: &Apart) -> Fields {
        let mut f = fields(&apart.world);
        f.records.iter_mut().zip(&apart.aside).for_each(|(r, steps)| r.steps = self.0.read(*steps));
        f
    }

    fn proposed(&self, apart: &mut Apart, station: u8, figure: i32) -> Result<(), Refusal> {
        let who = apart.world.place(station)?;
        apart.world.propose(station, figure)?;
        apart.aside[who] += (self.0 == ProposalCounted) as u16;
        Ok(())
    }

    fn stepped(&self, apart: &mut Apart, station: u8, by: By) -> Result<u64, Refusal> {
        let who = apart.world.place(station)?;
        let answer = apart.world.step(who);
        let counting = if self.0 == FirstStationCounts { 0 } else { who };
        apart.aside[counting] = self.0.counted(apart.aside[counting], answer, by);
        answer.map(packed_answer)
    }

    fn stands(&self, apart: &Apart, station: u8) -> Result<u64, Refusal> {
        let who = apart.world.place(station)?;
        let f = fields(&apart.world);
        let steps = self.0.told(f.n, &f.records[who], &apart.aside, who);
        Ok(packed_standing((apart.world.stations[who].standing(), steps as u16)))
    }
}

fn batches_find(fault: Fault) -> bool {
    compare::differs(&Faulty(fault), 1..40, |compare, seed| compare.batch(seed))
}

fn tails_find(fault: Fault) -> bool {
    let sizes = 0..SIZES.len() as u64;
    compare::differs(&Faulty(fault), sizes, |compare, seed| compare.every_tail(seed, SIZES[seed as usize]))
}

fn runs_find(fault: Fault) -> bool {
    compare::differs(&Faulty(fault), 1..2, |compare, seed| compare.most_counted(seed))
}

#[test]
fn what_is_right_passes() {
    assert!(!batches_find(None) && !tails_find(None) && !runs_find(None));
}

#[test]
fn each_fault_is_found_by_batches() {
    for fault in COUNTING.into_iter().chain(of_soundness()).chain(STANDING) {
        assert!(batches_find(fault), "{fault:?}");
    }
}

#[test]
fn each_fault_of_soundness_is_found_by_tails() {
    for fault in of_soundness() {
        assert!(tails_find(fault), "{fault:?}");
    }
}

#[test]
fn faults_of_large_counts_are_found_by_runs() {
    for fault in [NotCarried, StopsAt255, MostSignificantFirst, StandsWithAByte, StandsWithElevenBits] {
        assert!(runs_find(fault), "{fault:?}");
    }
}
