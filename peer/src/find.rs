//! A good activation order, found from the steps alone.

use crate::answer::Wrote;
use crate::phase::Phase;
use crate::plan::Plan;
use crate::postorder::best_postorder;
use crate::refusal::Refusal;
use crate::tree::one_root;

impl Plan {
    /// Writes the best postorder of the tasks to the front of the caller's list
    /// and touches no later entry. A refusal touches none: 3 until all steps are
    /// given, then 7, then 12 if some step's chain of parents never reaches the
    /// root, then 11 if the list has fewer than n entries.
    pub fn find_order(&self, list: &mut [u16]) -> Wrote {
        Wrote::of(self.found_order().and_then(|order| {
            let room = list.get_mut(..order.len()).ok_or(Refusal::ShortList)?;
            room.copy_from_slice(&order);
            Ok(order.len())
        }))
    }

    /// The order, or why there is none: 3, 7 or 12.
    pub(crate) fn found_order(&self) -> Result<Vec<u16>, Refusal> {
        if matches!(self.phase, Phase::Empty | Phase::Steps) {
            return Err(Refusal::OutOfTurn);
        }
        let records = &self.records[..self.tasks];
        let root = one_root(records)?;
        best_postorder(records, root).ok_or(Refusal::NeverReachesRoot)
    }
}
