//! Askings with what came of them.

use crate::kept::Questions;
use cephlouk::{Answer, Plan};
use peer::generate::Asking;
use peer::{decode, Command};

/// An asking, and what came of it.
#[derive(Clone, Copy)]
pub struct Answered {
    /// The command, where it is whole.
    pub command: Option<Command>,
    /// How many entries the start list has.
    pub starts_len: usize,
    pub answer: Answer,
    /// What the plan answers ahead of it.
    pub before: Questions,
    /// And behind it.
    pub after: Questions,
}

impl Answered {
    pub fn new(asking: &Asking, answer: Answer, before: Questions, after: Questions) -> Answered {
        let decoded = decode(&asking.bytes, asking.place);
        Answered {
            command: decoded.ok().map(|(command, _)| command),
            starts_len: asking.starts_len,
            answer,
            before,
            after,
        }
    }

    pub fn is_accepted(&self) -> bool {
        self.answer.number == 0
    }

    /// Whether the start list is one entry short.
    pub fn is_one_short(&self) -> bool {
        self.starts_len + 1 == Plan::LEAST_STARTS
    }
}
