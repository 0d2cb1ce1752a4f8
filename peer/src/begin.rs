//! BEGIN: the last checks, the figures of a new day, its first starts.

use crate::answer::Answer;
use crate::available::Available;
use crate::figures::Figures;
use crate::peak::{needs, peak};
use crate::phase::Phase;
use crate::plan::Plan;
use crate::refusal::Refusal;
use crate::tree::check_tree;

impl Plan {
    /// BEGIN books ahead and starts. Where no 04 came, the activation order is
    /// used for both from now on.
    pub(crate) fn begin(&mut self, starts: &mut [u16]) -> Result<Answer, Refusal> {
        if !self.may_begin() {
            return Err(Refusal::OutOfTurn);
        }
        let records = &self.records[..self.tasks];
        check_tree(records, &self.activation)?;
        let needs = needs(records);
        let (peak, peak_task) = peak(records, &needs, self.activation.entries());
        if peak > self.memory_bound {
            return Err(Refusal::PeakAboveBound);
        }
        self.phase = Phase::Running;
        if self.execution.is_empty() {
            self.execution = self.activation.clone();
        }
        self.reset_figures(&needs);
        self.peak = peak;
        self.activate();
        Ok(Answer {
            starts: self.start(starts),
            peak,
            peak_task,
            ..Answer::default()
        })
    }

    /// Whether BEGIN is in turn: in orders, once the activation order is
    /// complete, and the execution order is complete or has no entry at all.
    pub fn may_begin(&self) -> bool {
        self.phase == Phase::Orders
            && self.is_complete(&self.activation)
            && (self.execution.is_empty() || self.is_complete(&self.execution))
    }

    /// Every task waits and nothing is booked.
    fn reset_figures(&mut self, needs: &[u32]) {
        for (figures, &need) in self.figures[..self.tasks].iter_mut().zip(needs) {
            *figures = Figures::new(need);
        }
        for record in &self.records[..self.tasks] {
            if let Some(parent) = record.parent_index() {
                self.figures[parent].unfinished_children += 1;
            }
        }
        self.available = Available::new();
        self.activated = 0;
        self.running = 0;
        self.finished = 0;
        self.booked = 0;
        self.in_use = 0;
    }
}
