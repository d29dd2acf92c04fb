//! What was said of two tapes, counted: a run must have met every verdict.

use crate::refusal::Refusal;
use crate::tapes::Culprit;

/// How often each verdict was the answer.
#[derive(Default, Debug)]
pub struct Verdicts {
    pub none: u64,
    pub first: u64,
    pub second: u64,
    pub sheet_too_long: u64,
    pub no_step_answer: u64,
    /// The highest number of a line that was blamed.
    pub farthest: usize,
}

impl Verdicts {
    pub fn count(&mut self, found: Result<Option<Culprit>, Refusal>) {
        match found {
            Ok(None) => self.none += 1,
            Ok(Some(culprit)) => {
                *(if culprit.tape == 1 { &mut self.first } else { &mut self.second }) += 1;
                self.farthest = self.farthest.max(culprit.number);
            }
            Err(Refusal::SheetTooLong) => self.sheet_too_long += 1,
            Err(_) => self.no_step_answer += 1,
        }
    }

    pub fn all(&self) -> u64 {
        self.none + self.first + self.second + self.sheet_too_long + self.no_step_answer
    }

    /// The verdicts that did not come up.
    pub fn unmet(&self) -> Vec<&'static str> {
        let met = [self.none, self.first, self.second, self.sheet_too_long, self.no_step_answer];
        let names = ["none", "the first tape", "the second tape", "refusal 1", "refusal 21"];
        names.into_iter().zip(met).filter(|(_, times)| *times == 0).map(|(name, _)| name).collect()
    }
}
