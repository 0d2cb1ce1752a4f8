//! The grounds for refusing.

/// A ground for refusing; its value is its number in the table of grounds.
#[derive(Clone, Copy, Debug, PartialEq, Eq)]
#[repr(u8)]
pub enum Refusal {
    /// No byte is left, or operands are cut short.
    Cut = 1,
    /// The byte is none of 01 to 08.
    UnknownByte = 2,
    /// The command is not in turn.
    OutOfTurn = 3,
    /// n, p, a parent or a step number is outside its limits.
    OutsideLimits = 4,
    /// The step is already in that order.
    Repeated = 5,
    /// DONE for a step that isn't running.
    NotRunning = 6,
    /// The steps with parent 0 are not exactly one.
    NotOneRoot = 7,
    /// Some step does not stand before its parent in the activation order.
    ParentFirst = 8,
    /// The peak is above M.
    PeakAboveBound = 9,
    /// The start list has fewer than 64 entries.
    ShortStartList = 10,
    /// The lent list is too short.
    ShortList = 11,
    /// Some step's chain of parents never reaches the root.
    NeverReachesRoot = 12,
    /// The booked trays are above the new M.
    BookedAboveBound = 13,
}

impl Refusal {
    /// The number that answers this ground.
    pub fn number(self) -> u8 {
        self as u8
    }
}
