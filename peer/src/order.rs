//! An order of tasks, as far as it has been given.

use crate::plan::Plan;
use crate::record::index;

/// The activation order or the execution order: each task at most once.
#[derive(Clone)]
pub(crate) struct Order {
    entries: [u16; Plan::TASKS],
    places: [u16; Plan::TASKS],
    len: usize,
}

impl Order {
    pub fn new() -> Order {
        Order {
            entries: [0; Plan::TASKS],
            places: [0; Plan::TASKS],
            len: 0,
        }
    }

    /// Forgets all entries. Stale places stay behind; `holds` sees through
    /// them because it asks the entry at the place, too.
    pub fn clear(&mut self) {
        self.len = 0;
    }

    pub fn len(&self) -> usize {
        self.len
    }

    pub fn is_empty(&self) -> bool {
        self.len == 0
    }

    /// The tasks in their order.
    pub fn entries(&self) -> &[u16] {
        &self.entries[..self.len]
    }

    /// Whether the task is already in this order.
    pub fn holds(&self, task: u16) -> bool {
        self.entries().get(self.place(task)) == Some(&task)
    }

    /// Where a task of this order stands, counted from 0.
    pub fn place(&self, task: u16) -> usize {
        usize::from(self.places[index(task)])
    }

    /// Appends a task that is not yet in this order.
    pub fn push(&mut self, task: u16) {
        self.places[index(task)] = self.len as u16;
        self.entries[self.len] = task;
        self.len += 1;
    }
}
