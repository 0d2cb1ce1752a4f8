//! Plans written out by the peer, where commands led to them: into lists one
//! byte short, of exactly the length, and longer, with a mark in each place.

use crate::tool::{led, lent_list, tasks, Tool};
use peer::generate::Random;
use peer::{Plan, Wrote};

/// A plan written back out.
pub struct Write;

impl Tool for Write {
    /// The list that is written to.
    type Lent = Vec<u8>;

    const NUMBERS: usize = 2;

    fn lend(random: &mut Random, commands: &[u8]) -> Vec<u8> {
        let needed = 8 + 13 * usize::from(tasks(commands));
        let marks = lent_list(random, needed, Plan::WRITTEN);
        marks.into_iter().map(|mark| mark as u8).collect()
    }

    fn answer(commands: &[u8], lent: &mut Vec<u8>) -> Vec<u64> {
        let Wrote { number, count } = led(Plan::new(), commands).write(lent);
        vec![number.into(), count as u64]
    }
}
