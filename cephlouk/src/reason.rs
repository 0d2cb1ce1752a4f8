//! Why a step is not starting.

use crate::refusal::Refusal;

/// What keeps a step from starting, the first that is true in this order. Later
/// versions may have more.
#[non_exhaustive]
#[derive(Clone, Copy, Debug, PartialEq, Eq, Hash)]
pub enum Reason {
    /// It has ended.
    Ended,
    /// It is running.
    Running,
    /// It is not booked, since the first waiting step in the activation order,
    /// this one or another, is not.
    NotBooked {
        /// The first waiting step.
        first: u16,
        /// The trays that `first` lacks: with that many more places it would
        /// be booked now, and with one fewer than that it would not.
        lack: u32,
    },
    /// It waits for a feeder: the lowest-numbered child that has not ended.
    Unfed(u16),
    /// All stations are taken.
    NoProcessor,
}

/// A reason as plain numbers, as the library gives it.
#[repr(C)]
pub(crate) struct FlatReason {
    /// 0, or the number of the refusal.
    pub number: u8,
    /// Which reason it is; in a refusal none of those below.
    pub kind: u8,
    /// The step that it names, or 0.
    pub task: u16,
    /// The trays that are lacking, or 0.
    pub lack: u32,
}

impl FlatReason {
    const ENDED: u8 = 1;
    const RUNNING: u8 = 2;
    const NOT_BOOKED: u8 = 3;
    const UNFED: u8 = 4;
    const NO_PROCESSOR: u8 = 5;

    pub(crate) fn told(&self) -> Result<Reason, Refusal> {
        match Refusal::of_number(self.number) {
            Some(refusal) => Err(refusal),
            None => Ok(match self.kind {
                FlatReason::ENDED => Reason::Ended,
                FlatReason::RUNNING => Reason::Running,
                FlatReason::NOT_BOOKED => Reason::NotBooked {
                    first: self.task,
                    lack: self.lack,
                },
                FlatReason::UNFED => Reason::Unfed(self.task),
                FlatReason::NO_PROCESSOR => Reason::NoProcessor,
                kind => unreachable!("the library tells no reason {kind}"),
            }),
        }
    }
}
