//! Wrong counts of the registers that a collect meets, each of which the comparison finds: which are counted, what stays of
//! the count, what the answers tell, and what soundness asks of it.

mod fault;
mod read;

use fault::{all_faults, of_answers, Fault};
use read::Read;
use reference::bytes::{fields, values, Fields};
use reference::compare;
use reference::engine::{packed_answer, packed_standing};
use reference::filled_batches::FILLED_SIZES;
use reference::model::{Mark, Station};
use reference::on_values::{Apart, By, OnValues};
use reference::refusal::Refusal;
use reference::sound::sound;

/// The counts stand aside; the world's own begin at 0 with each board and are not looked at.
struct Faulty(Fault);

impl Faulty {
    /// A step that was taken, as the fault counts and tells it.
    fn counted(&self, apart: &mut Apart, who: usize, read: Option<Read>, answer: u64, by: By) -> u64 {
        let (fault, kind) = (self.0, answer >> 8 & 0xFF);
        let counting = if fault == Fault::FirstStationCounts { 0 } else { who };
        let before = apart.aside[counting];
        let Some(read) = read else {
            apart.aside[counting] = fault.left(before, kind, by);
            return fault.packed(answer, (fault == Fault::WriteTells) as u16);
        };
        let met = fault.counted(before, &read, by);
        apart.aside[counting] = fault.left(met, kind, by);
        let answer = if fault == Fault::FlagByTheCount { flagged(apart, who, answer, met) } else { answer };
        fault.packed(answer, fault.told(kind, before, met, &read))
    }
}

/// The flag goes by the count, on the board and in the answer.
fn flagged(apart: &mut Apart, who: usize, answer: u64, met: u16) -> u64 {
    let Station::WriteB(_, flag) = &mut apart.world.stations[who] else { return answer };
    *flag = if met == 1 { Mark::Commit } else { Mark::Adopt };
    answer & !0xFF_0000 | if met == 1 { 2 } else { 1 } << 16
}

impl OnValues for Faulty {
    fn opened(&self, mut f: Fields) -> Option<Apart> {
        let fit = f.records.iter().enumerate().all(|(who, r)| self.0.sound(f.n, who, r));
        let aside = f.records.iter().map(|r| r.met as u16).collect();
        f.records.iter_mut().for_each(|r| (r.met, r.zero) = (0, 0));
        (fit && sound(&f)).then(|| Apart { world: values(&f), aside })
    }

    fn closed(&self, apart: &Apart) -> Fields {
        let mut f = fields(&apart.world);
        for (r, met) in f.records.iter_mut().zip(&apart.aside) {
            let hidden = self.0 == Fault::GoesOnInRuns && !matches!(r.phase, 2 | 4 | 6);
            r.met = if hidden { 0 } else { *met as u8 };
        }
        f
    }

    fn proposed(&self, apart: &mut Apart, station: u8, figure: i32) -> Result<(), Refusal> {
        let who = apart.world.place(station)?;
        apart.world.propose(station, figure)?;
        apart.aside[who] += (self.0 == Fault::ProposalCounts) as u16;
        Ok(())
    }

    fn stepped(&self, apart: &mut Apart, station: u8, by: By) -> Result<u64, Refusal> {
        let who = apart.world.place(station)?;
        let read = Read::of(&apart.world, who);
        match apart.world.step(who) {
            Ok(answer) => Ok(self.counted(apart, who, read, packed_answer(answer), by)),
            Err(refusal) if self.0 == Fault::RefusalTells && by == By::Step => Ok(refusal.number() as u64 | 1 << 24),
            Err(refusal) => Err(refusal),
        }
    }

    fn stands(&self, apart: &Apart, station: u8) -> Result<u64, Refusal> {
        let who = apart.world.place(station)?;
        let more = if self.0 == Fault::StandsWithIt { apart.aside[who] } else { 0 };
        Ok(packed_standing((apart.world.stations[who].standing(), apart.world.steps[who] + more)))
    }
}

fn batches_find(fault: Fault) -> bool {
    compare::differs(&Faulty(fault), 1..40, |compare, seed| compare.batch(seed))
}

/// Every place with every count there.
fn places_find(fault: Fault) -> bool {
    let sizes = 0..FILLED_SIZES.len() as u64;
    compare::differs(&Faulty(fault), sizes, |compare, seed| compare.every_filled(seed, FILLED_SIZES[seed as usize]))
}

/// The engine beside itself: its totals, and the boards that its calls were lent.
fn lists_find(fault: Fault) -> bool {
    compare::differs(&Faulty(fault), 1..200, |compare, seed| compare.recounted(seed))
}

#[test]
fn what_is_right_passes() {
    assert!(!batches_find(Fault::None) && !places_find(Fault::None) && !lists_find(Fault::None));
}

#[test]
fn each_fault_is_found_by_batches() {
    for fault in all_faults() {
        assert!(batches_find(fault), "{fault:?}");
    }
}

#[test]
fn each_fault_is_found_at_every_place() {
    for fault in all_faults() {
        assert!(places_find(fault), "{fault:?}");
    }
}

/// Without the second implementation: whatever tells other registers than were met.
#[test]
fn faults_of_answers_are_found_by_lists() {
    for fault in of_answers() {
        assert!(lists_find(fault), "{fault:?}");
    }
}
