//! What a command answers.

use crate::refusal::Refusal;

/// An accepted command. More may be told of one in later versions.
#[non_exhaustive]
#[derive(Clone, Copy, Debug, PartialEq, Eq)]
pub struct Accepted<'a> {
    /// The bytes of the command; the next one may stand behind them.
    pub used: usize,
    /// The steps that start now, in order.
    pub starts: &'a [u16],
    /// Of BEGIN: the most trays that the activation order needs, one step
    /// after another.
    pub peak: u64,
    /// Of BEGIN: the step that sets the peak, the earliest in the activation
    /// order where several are equal; 0 of any other command.
    pub by: u16,
    /// Of DONE: to how many steps freed trays were offered.
    pub offers: usize,
}

/// The plain numbers of an answer, as the library gives them; in a refusal all
/// but the first are 0.
#[repr(C)]
#[derive(Clone, Copy, Debug, Default, PartialEq, Eq)]
pub struct Answer {
    /// 0 for accepted, or the number of the refusal.
    pub number: u8,
    /// The bytes of the command.
    pub used: usize,
    /// How many steps start now; they stand at the front of the start list.
    pub starts: usize,
    /// Of BEGIN: the peak of the activation order.
    pub peak: u64,
    /// Of BEGIN: the step that sets it.
    pub by: u16,
    /// Of DONE: how many offers were made.
    pub offers: usize,
}

/// The plain numbers of what was written to the front of a lent list, as the
/// library gives them.
#[repr(C)]
#[derive(Clone, Copy, Debug, Default, PartialEq, Eq)]
pub struct Wrote {
    /// 0 for written, or the number of the refusal.
    pub number: u8,
    /// How many entries were written; 0 in a refusal.
    pub count: usize,
}

impl Wrote {
    /// Why nothing was written, if it was refused.
    #[must_use]
    pub fn refusal(&self) -> Option<Refusal> {
        Refusal::of_number(self.number)
    }

    /// How many entries were written, or why none was.
    pub(crate) fn written(self) -> Result<usize, Refusal> {
        match self.refusal() {
            Some(refusal) => Err(refusal),
            None => Ok(self.count),
        }
    }
}

impl Answer {
    /// Why the command was refused, if it was.
    #[must_use]
    pub fn refusal(&self) -> Option<Refusal> {
        Refusal::of_number(self.number)
    }
}
