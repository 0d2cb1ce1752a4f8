//! Why tasks are not starting, by the peer: tasks of the plan that commands
//! led to, and numbers that are none of its tasks'.

use crate::tool::{led, tasks, Tool};
use peer::generate::Random;
use peer::{Plan, Reason};

/// So many numbers are asked about at once.
pub const ASKED: usize = 16;

/// Why tasks are not starting.
pub struct Why;

impl Tool for Why {
    /// The numbers that are asked about.
    type Lent = [u16; ASKED];

    const NUMBERS: usize = 4;

    fn lend(random: &mut Random, commands: &[u8]) -> [u16; ASKED] {
        let tasks = tasks(commands);
        [(); ASKED].map(|()| match random.between(0, 19) {
            0 => random.pick(&[0, tasks, tasks + 1, u16::MAX]),
            _ => random.between(1, tasks.max(1).into()) as u16,
        })
    }

    fn answer(commands: &[u8], lent: &mut [u16; ASKED]) -> Vec<u64> {
        let plan = led(Plan::new(), commands);
        lent.iter()
            .flat_map(|&task| numbers(plan.why(task)))
            .collect()
    }
}

/// Which reason it is.
pub mod kind {
    pub const REFUSED: u64 = 0;
    pub const ENDED: u64 = 1;
    pub const RUNNING: u64 = 2;
    pub const NOT_BOOKED: u64 = 3;
    pub const UNFED: u64 = 4;
    pub const NO_PROCESSOR: u64 = 5;
}

/// A reason as plain numbers: the number of a refusal, which reason it is, the
/// task that it names and the trays that are lacking.
pub fn numbers(reason: Reason) -> [u64; Why::NUMBERS] {
    match reason {
        Reason::Refused(number) => [number.into(), kind::REFUSED, 0, 0],
        Reason::Ended => [0, kind::ENDED, 0, 0],
        Reason::Running => [0, kind::RUNNING, 0, 0],
        Reason::NotBooked { first, lack } => [0, kind::NOT_BOOKED, first.into(), lack.into()],
        Reason::Unfed(child) => [0, kind::UNFED, child.into(), 0],
        Reason::NoProcessor => [0, kind::NO_PROCESSOR, 0, 0],
    }
}
