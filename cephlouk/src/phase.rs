//! Phases and standings.

/// The phase of a plan. Later versions may have more.
#[non_exhaustive]
#[derive(Clone, Copy, Debug, PartialEq, Eq, Hash)]
pub enum Phase {
    /// No plan was opened.
    Empty,
    /// Steps are missing.
    Steps,
    /// Entries of the orders, or BEGIN, are missing.
    Orders,
    /// The day runs.
    Running,
    /// The last step has ended, and its trolley has been fetched.
    Over,
    /// The last step has ended, and its out stands in the cold room until it is
    /// fetched.
    Ready,
}

impl Phase {
    /// The phase of a number that the library answers.
    pub(crate) fn of_number(number: u32) -> Phase {
        match number {
            0 => Phase::Empty,
            1 => Phase::Steps,
            2 => Phase::Orders,
            3 => Phase::Running,
            4 => Phase::Over,
            5 => Phase::Ready,
            _ => unreachable!("the library tells no phase {number}"),
        }
    }
}

/// How many steps wait, are booked, run and have ended.
#[repr(C)]
#[derive(Clone, Copy, Debug, Default, PartialEq, Eq)]
pub struct Standing {
    /// Steps that have no trays booked for them yet.
    pub waiting: u32,
    /// Steps that are booked and have not started.
    pub activated: u32,
    /// Steps that run.
    pub running: u32,
    /// Steps that have ended.
    pub finished: u32,
}
