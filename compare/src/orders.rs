//! Activation orders found by the peer, where commands led to a plan: into lists
//! one entry short, of exactly the length, and longer, with a mark in each place.

use crate::kept::Kept;
use crate::tool::{cut_anywhere, last_plan, led, lent_list, tasks, Tool};
use cephlouk::Answer;
use peer::generate::{encode, steps_only, Random};
use peer::{Command, Plan, Wrote};

/// A good activation order, found.
pub struct FindOrder;

impl Tool for FindOrder {
    /// The list that is written to.
    type Lent = Vec<u16>;

    /// In half of the cases the tasks alone, which often form no tree.
    fn commands(random: &mut Random, seed: u64) -> Vec<u8> {
        if random.chance(50) {
            steps_only(random)
        } else {
            cut_anywhere(random, seed)
        }
    }

    /// The number, how many entries were written, and BEGIN's number, its peak
    /// and the peak's task with that order.
    const NUMBERS: usize = 5;

    fn lend(random: &mut Random, commands: &[u8]) -> Vec<u16> {
        lent_list(random, tasks(commands).into(), Plan::TASKS)
    }

    fn answer(commands: &[u8], lent: &mut Vec<u16>) -> Vec<u64> {
        let Wrote { number, count } = led(Plan::new(), commands).find_order(lent);
        let [begin, peak, by] = begun(Plan::new(), commands, &lent[..count]);
        vec![number.into(), count as u64, begin, peak, by]
    }
}

/// BEGIN's number, its peak and the peak's task where an empty plan gets the
/// opening and the tasks of the last plan, and an order by 03; zeros where there
/// is no order. An entry that is not taken leaves BEGIN out of turn.
pub fn begun<P: Kept>(mut plan: P, commands: &[u8], order: &[u16]) -> [u64; 3] {
    if order.is_empty() {
        return [0; 3];
    }
    let last = last_plan(commands).into_iter();
    let tasks = last.filter(|command| matches!(command, Command::Plan { .. } | Command::Step(_)));
    let entries = order.iter().copied().map(Command::Activation);
    let mut answer = Answer::default();
    for command in tasks.chain(entries).chain([Command::Begin]) {
        answer = plan.command(&encode(command), 0, &mut [0; Plan::STARTS]);
    }
    [answer.number.into(), answer.peak, answer.by.into()]
}
