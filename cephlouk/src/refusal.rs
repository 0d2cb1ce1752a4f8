//! The grounds for refusing.

use std::error::Error;
use std::fmt::{Display, Formatter, Result};

/// Why a command, or what a plan or the desk was asked, is refused. Nothing has
/// changed then.
///
/// ```
/// use cephlouk::{Command, Plan, Refusal};
///
/// let refusal = Plan::new().apply(Command::Begin).unwrap_err();
/// assert_eq!(refusal, Refusal::OutOfTurn);
/// assert_eq!(refusal.number(), 3);
/// assert_eq!(refusal.to_string(), "not in turn");
/// ```
///
/// Later versions may have more.
#[non_exhaustive]
#[derive(Clone, Copy, Debug, PartialEq, Eq, Hash)]
#[repr(u8)]
pub enum Refusal {
    /// No byte is left at the place, or operands are cut short.
    CutShort = 1,
    /// The byte is none of 01 to 08.
    UnknownByte = 2,
    /// The command, or what the plan is asked, is not in turn: the question why
    /// a step is not starting outside running, writing a plan until both its
    /// orders are complete, and finding an order until all steps are given.
    OutOfTurn = 3,
    /// n, p, a parent or a step number is outside its limits. At the desk also
    /// lists of unequal lengths, of none or of too many entries.
    OutsideLimits = 4,
    /// The step is already in that order.
    Repeated = 5,
    /// DONE for a step that is not running.
    NotRunning = 6,
    /// The steps with parent 0 are not exactly one.
    NotOneRoot = 7,
    /// Some step does not stand before its parent in the activation order.
    ParentFirst = 8,
    /// BEGIN, and 08: there are fewer tray places than the peak, which one step
    /// after another needs.
    PeakAboveBound = 9,
    /// The start list has fewer than 64 entries; only
    /// [`Plan::command_with`](crate::Plan::command_with) can meet it.
    FewStarts = 10,
    /// The lent list is too short for what is to be written.
    ShortList = 11,
    /// No order can be found: some step's chain of parents never reaches the
    /// root, the step with parent 0.
    RootUnreached = 12,
    /// 08: fewer tray places are given than trays are booked.
    BoundBelowBooked = 13,
}

impl Refusal {
    /// All of them, by their numbers.
    const ALL: [Refusal; 13] = [
        Refusal::CutShort,
        Refusal::UnknownByte,
        Refusal::OutOfTurn,
        Refusal::OutsideLimits,
        Refusal::Repeated,
        Refusal::NotRunning,
        Refusal::NotOneRoot,
        Refusal::ParentFirst,
        Refusal::PeakAboveBound,
        Refusal::FewStarts,
        Refusal::ShortList,
        Refusal::RootUnreached,
        Refusal::BoundBelowBooked,
    ];

    /// Its number, 1 to 13.
    #[must_use]
    pub fn number(self) -> u8 {
        self as u8
    }

    /// The refusal of a number; none for 0, which is accepted.
    pub(crate) fn of_number(number: u8) -> Option<Refusal> {
        if number == 0 {
            return None;
        }
        let mut all = Refusal::ALL.into_iter();
        let refusal = all.find(|refusal| refusal.number() == number);
        Some(refusal.unwrap_or_else(|| unreachable!("the library refuses with no {number}")))
    }
}

impl Display for Refusal {
    fn fmt(&self, to: &mut Formatter) -> Result {
        to.write_str(match self {
            Refusal::CutShort => "no byte is left, or the operands are cut short",
            Refusal::UnknownByte => "the byte is no command",
            Refusal::OutOfTurn => "not in turn",
            Refusal::OutsideLimits => "a number is outside its limits",
            Refusal::Repeated => "the step is already in that order",
            Refusal::NotRunning => "the step is not running",
            Refusal::NotOneRoot => "the steps with parent 0 are not exactly one",
            Refusal::ParentFirst => {
                "some step does not stand before its parent in the activation order"
            }
            Refusal::PeakAboveBound => "the tray places are fewer than the peak",
            Refusal::FewStarts => "the start list has fewer than 64 entries",
            Refusal::ShortList => "the list is too short for what is to be written",
            Refusal::RootUnreached => "some step's chain of parents never reaches the root",
            Refusal::BoundBelowBooked => "the tray places are fewer than the trays booked",
        })
    }
}

impl Error for Refusal {}
