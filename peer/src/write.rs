//! A plan written back out, in one form whatever mix its orders came in.

use crate::answer::Wrote;
use crate::command::{NUMBER_BYTES, PLAN_BYTES, STEP_BYTES};
use crate::encode;
use crate::plan::Plan;
use crate::refusal::Refusal;

/// The bytes of one task: its STEP and its entry in each order.
const TASK_BYTES: usize = STEP_BYTES + 2 * NUMBER_BYTES;

impl Plan {
    /// The most bytes of a written plan.
    pub const WRITTEN: usize = PLAN_BYTES + Plan::TASKS * TASK_BYTES;

    /// Writes PLAN with the bound in force, the steps, the activation order and
    /// the execution order to the front of the caller's list and touches no
    /// later byte. A refusal touches none: 3 unless both orders are complete,
    /// then 11 if the list is too short.
    pub fn write(&self, list: &mut [u8]) -> Wrote {
        Wrote::of(self.room(list).map(|room| {
            self.fill(room);
            room.len()
        }))
    }

    /// The checks, then the front of the list, as long as the written plan.
    fn room<'a>(&self, list: &'a mut [u8]) -> Result<&'a mut [u8], Refusal> {
        if !self.has_both_orders() {
            return Err(Refusal::OutOfTurn);
        }
        let count = PLAN_BYTES + self.tasks * TASK_BYTES;
        list.get_mut(..count).ok_or(Refusal::ShortList)
    }

    fn fill(&self, room: &mut [u8]) {
        let (opening, rest) = room.split_at_mut(PLAN_BYTES);
        let (steps, orders) = rest.split_at_mut(self.tasks * STEP_BYTES);
        let (activation, execution) = orders.split_at_mut(self.tasks * NUMBER_BYTES);
        let (tasks, processors) = (self.tasks as u16, self.processors as u8);
        opening.copy_from_slice(&encode::plan(tasks, processors, self.memory_bound));
        fill_with(steps, &self.records[..self.tasks], encode::step);
        fill_with(activation, self.activation.entries(), encode::activation);
        fill_with(execution, self.execution.entries(), encode::execution);
    }
}

/// Writes one command for each item.
fn fill_with<T: Copy, const WIDTH: usize>(
    room: &mut [u8],
    items: &[T],
    command: impl Fn(T) -> [u8; WIDTH],
) {
    for (bytes, &item) in room.chunks_exact_mut(WIDTH).zip(items) {
        bytes.copy_from_slice(&command(item));
    }
}
