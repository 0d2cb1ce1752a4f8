//! What a caller gets back.

use crate::refusal::Refusal;

/// The answer to one command.
#[derive(Clone, Copy, Debug, Default, PartialEq, Eq)]
pub struct Answer {
    /// 0 when accepted, else the number of the ground for refusing.
    pub number: u8,
    /// Bytes used: the command byte and its operands.
    pub used: usize,
    /// How many tasks the command starts.
    pub starts: usize,
    /// The peak of the activation order; by BEGIN only.
    pub peak: u32,
    /// The task that sets the peak, the earliest in the activation order where
    /// several are equal; 0 where no peak is answered.
    pub peak_task: u16,
    /// Offers made while sharing out; by DONE only.
    pub offers: usize,
}

impl Answer {
    /// A refusal answers its number, with every other count 0.
    pub(crate) fn refused(refusal: Refusal) -> Answer {
        Answer {
            number: refusal.number(),
            ..Answer::default()
        }
    }
}

/// The answer to the planners' desk.
#[derive(Clone, Copy, Debug, Default, PartialEq, Eq)]
pub struct DeskAnswer {
    /// 0 when accepted, else the number of the ground for refusing.
    pub number: u8,
    /// The peak of the desk's activation list; 0 on a refusal.
    pub peak: u32,
    /// The task that sets the peak, the earliest in the list where several are
    /// equal; 0 on a refusal.
    pub peak_task: u16,
}

/// The answer to whoever has a plan or a found order written into a lent list.
#[derive(Clone, Copy, Debug, Default, PartialEq, Eq)]
pub struct Wrote {
    /// 0 when written, else the number of the ground for refusing.
    pub number: u8,
    /// How many bytes of a plan, or entries of an order, were written; 0 on a
    /// refusal.
    pub count: usize,
}

impl Wrote {
    /// So many were written, or none on a refusal.
    pub(crate) fn of(written: Result<usize, Refusal>) -> Wrote {
        match written {
            Ok(count) => Wrote { number: 0, count },
            Err(refusal) => Wrote {
                number: refusal.number(),
                count: 0,
            },
        }
    }
}
