//! Booking ahead.

use crate::figures::Standing;
use crate::plan::Plan;
use crate::record::index;

impl Plan {
    /// Books ahead in the activation order until the first waiting task
    /// doesn't fit. No later task is tried.
    pub(crate) fn activate(&mut self) {
        while let Some(&task) = self.activation.entries().get(self.activated) {
            let missing = self.missing(task);
            // B + missing is at most M; B alone always is.
            if missing > self.memory_bound - self.booked {
                break;
            }
            self.activate_task(task, missing);
        }
    }

    /// The missing trays of a task, which is the first waiting one: its need
    /// less (its own booked trays plus the subtree figures of its children),
    /// never below 0.
    pub(crate) fn missing(&self, task: u16) -> u32 {
        let figures = &self.figures[index(task)];
        figures.need.saturating_sub(figures.by_subtree)
    }

    /// The first waiting task gets its missing units and becomes activated.
    fn activate_task(&mut self, task: u16, missing: u32) {
        let figures = &mut self.figures[index(task)];
        figures.booked += missing;
        figures.by_subtree += missing;
        figures.standing = Standing::Activated;
        let by_subtree = figures.by_subtree;
        if figures.unfinished_children == 0 {
            self.available.insert(self.execution.place(task));
        }
        // The parent still waits; from now on its sum counts this task.
        if let Some(parent) = self.records[index(task)].parent_index() {
            self.figures[parent].by_subtree += by_subtree;
        }
        self.activated += 1;
        self.booked += missing;
    }
}
