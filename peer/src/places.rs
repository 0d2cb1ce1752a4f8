//! 08: shelves are shut for cleaning or opened again, and the bound changes.

use crate::answer::Answer;
use crate::phase::Phase;
use crate::plan::Plan;
use crate::refusal::Refusal;

impl Plan {
    /// Takes a new M that is at least the peak of the whole activation order and
    /// at least B; then books ahead and starts.
    pub(crate) fn places(&mut self, bound: u32, starts: &mut [u16]) -> Result<Answer, Refusal> {
        if self.phase != Phase::Running {
            return Err(Refusal::OutOfTurn);
        }
        if self.peak > bound {
            return Err(Refusal::PeakAboveBound);
        }
        if self.booked > bound {
            return Err(Refusal::BookedAboveBound);
        }
        self.memory_bound = bound;
        self.activate();
        Ok(Answer {
            starts: self.start(starts),
            ..Answer::default()
        })
    }
}
