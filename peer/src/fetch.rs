//! FETCH: the trolley is fetched.

use crate::answer::Answer;
use crate::phase::Phase;
use crate::plan::Plan;
use crate::record::index;
use crate::refusal::Refusal;
use std::mem;

impl Plan {
    /// FETCH frees the root's out, which is all that is booked and in use by
    /// now, and leads to over.
    pub(crate) fn fetch(&mut self) -> Result<Answer, Refusal> {
        if self.phase != Phase::Ready {
            return Err(Refusal::OutOfTurn);
        }
        // Each task stands before its parent, and so the root stands last.
        let root = self.activation.entries()[self.tasks - 1];
        let out = mem::take(&mut self.figures[index(root)].booked);
        self.booked -= out;
        self.in_use -= out;
        self.phase = Phase::Over;
        Ok(Answer::default())
    }
}
