//! A plan that is kept and asked: the proved one, and the peer's.

use cephlouk::{Answer, Phase, Refusal, Standing};
use peer::{decode, Command};
use std::ops::Range;

/// What a plan is asked, whoever has it.
pub trait Kept {
    /// Gives it the command at a place, with a start list.
    fn command(&mut self, bytes: &[u8], place: usize, starts: &mut [u16]) -> Answer;

    /// What it answers to every question.
    fn questions(&self) -> Questions;

    /// The number that an order is refused with where there is no list for it:
    /// 3, 7, 12 or 11.
    fn order_refusal(&self) -> u8;

    /// M, the bound in force, by what it writes out; both orders are complete.
    fn bound(&self) -> u32;

    /// All that it keeps: a refusal leaves every word as it was.
    fn words(&self) -> &[u32];

    /// Makes it the empty plan again.
    fn clear(&mut self);
}

/// The answers to all questions.
#[derive(Clone, Copy, Debug, PartialEq, Eq)]
pub struct Questions {
    pub phase: Phase,
    pub booked: u32,
    pub in_use: u32,
    pub fullness: u32,
    pub standing: Standing,
    /// Whether both orders are complete: it would be written, were there a list.
    pub is_whole: bool,
}

/// Gives a plan the commands at some places of bytes; all are accepted.
pub fn give(plan: &mut impl Kept, bytes: &[u8], places: Range<usize>, starts: &mut [u16]) {
    let mut place = places.start;
    while place < places.end {
        let answer = plan.command(bytes, place, starts);
        assert_eq!(answer.number, 0, "the command at {place}");
        place += answer.used;
    }
}

impl Kept for cephlouk::Plan {
    fn command(&mut self, bytes: &[u8], place: usize, starts: &mut [u16]) -> Answer {
        self.command_with(bytes, place, starts)
    }

    fn questions(&self) -> Questions {
        Questions {
            phase: self.phase(),
            booked: self.booked(),
            in_use: self.in_use(),
            fullness: self.fullness(),
            standing: self.standing(),
            is_whole: self.write(&mut []) != Err(Refusal::OutOfTurn),
        }
    }

    fn order_refusal(&self) -> u8 {
        self.find_order_with(&mut []).number
    }

    fn bound(&self) -> u32 {
        let mut written = vec![0; cephlouk::Plan::MOST_BYTES];
        self.write(&mut written).expect("a written plan");
        written_bound(&written)
    }

    fn words(&self) -> &[u32] {
        cephlouk::Plan::words(self)
    }

    fn clear(&mut self) {
        cephlouk::Plan::clear(self);
    }
}

/// M of a plan that is written out.
fn written_bound(written: &[u8]) -> u32 {
    match decode(written, 0) {
        Ok((Command::Plan { memory_bound, .. }, _)) => memory_bound,
        other => unreachable!("a plan is written with {other:?} first"),
    }
}

/// Whether both orders of the peer's plan are complete.
pub fn is_whole(plan: &peer::Plan) -> bool {
    plan.write(&mut []).number != peer::Refusal::OutOfTurn.number()
}

/// The peer does not show what it keeps.
impl Kept for peer::Plan {
    fn command(&mut self, bytes: &[u8], place: usize, starts: &mut [u16]) -> Answer {
        let answer = peer::Plan::command(self, bytes, place, starts);
        Answer {
            number: answer.number,
            used: answer.used,
            starts: answer.starts,
            peak: answer.peak.into(),
            by: answer.peak_task,
            offers: answer.offers,
        }
    }

    fn questions(&self) -> Questions {
        let [waiting, activated, running, finished] = self.standing();
        Questions {
            phase: match self.phase() {
                peer::Phase::Empty => Phase::Empty,
                peer::Phase::Steps => Phase::Steps,
                peer::Phase::Orders => Phase::Orders,
                peer::Phase::Running => Phase::Running,
                peer::Phase::Over => Phase::Over,
                peer::Phase::Ready => Phase::Ready,
            },
            booked: self.booked(),
            in_use: self.in_use(),
            fullness: self.fullness(),
            standing: Standing {
                waiting,
                activated,
                running,
                finished,
            },
            is_whole: is_whole(self),
        }
    }

    fn order_refusal(&self) -> u8 {
        self.find_order(&mut []).number
    }

    fn bound(&self) -> u32 {
        let mut written = vec![0; peer::Plan::WRITTEN];
        self.write(&mut written);
        written_bound(&written)
    }

    fn words(&self) -> &[u32] {
        &[]
    }

    fn clear(&mut self) {
        *self = peer::Plan::new();
    }
}
