//! The figures a day keeps for each task.

/// How a task stands: waiting, booked, running or ended.
#[derive(Clone, Copy, PartialEq, Eq)]
pub(crate) enum Standing {
    Waiting,
    Activated,
    Running,
    Finished,
}

/// One task's figures while a day runs.
#[derive(Clone, Copy)]
pub(crate) struct Figures {
    /// The need of the task.
    pub need: u32,
    /// The booked trays of the task.
    pub booked: u32,
    /// The subtree figure: what the task and all below it have booked. For a
    /// waiting task, the sum that booking ahead looks at: its own booked
    /// trays plus the subtree figures of those children that do not wait.
    pub by_subtree: u32,
    pub unfinished_children: u16,
    pub standing: Standing,
}

impl Figures {
    /// The figures at BEGIN, before any child is counted.
    pub fn new(need: u32) -> Figures {
        Figures {
            need,
            booked: 0,
            by_subtree: 0,
            unfinished_children: 0,
            standing: Standing::Waiting,
        }
    }
}
