//! Sharing out.

use crate::figures::Standing;
use crate::plan::Plan;

impl Plan {
    /// Shares out what a finished task had booked and tells how many offers
    /// that took.
    pub(crate) fn dispatch(&mut self, task: usize) -> usize {
        let figures = &mut self.figures[task];
        // R: it belongs to no task until it is given.
        let taken = figures.booked;
        figures.booked = 0;
        figures.by_subtree = 0;
        // The out goes to the parent; the root's remains booked.
        let parent = self.records[task].parent_index();
        let out = u32::from(self.records[task].out);
        self.figures[parent.unwrap_or(task)].booked += out;
        let (offers, free) = self.climb(parent, taken - out);
        self.booked -= free;
        offers
    }

    /// Climbs from parent to parent. Ends past the root, at a waiting task,
    /// or when nothing is left of R; tells the offers made and what is left.
    ///
    /// The sum of each task on the way still counts R, which has left its
    /// subtree. Above the end nothing changes: either R is 0, or the sums
    /// above a waiting task do not count that task yet.
    fn climb(&mut self, from: Option<usize>, mut left: u32) -> (usize, u32) {
        let mut offers = 0;
        let mut next = from;
        loop {
            let Some(task) = next else {
                break (offers, left);
            };
            let figures = &mut self.figures[task];
            figures.by_subtree -= left;
            if figures.standing == Standing::Waiting || left == 0 {
                break (offers, left);
            }
            let gift = figures.need.saturating_sub(figures.by_subtree);
            figures.booked += gift;
            figures.by_subtree += gift;
            left -= gift;
            offers += 1;
            next = self.records[task].parent_index();
        }
    }
}
