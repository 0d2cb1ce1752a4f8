//! Commands as bytes: the command byte and its operands, lowest byte first.

use crate::command::{Command, NUMBER_BYTES, PLACES_BYTES, PLAN_BYTES, STEP_BYTES};
use crate::record::Record;

/// The byte and operands of a command.
pub fn encode(command: Command) -> Vec<u8> {
    match command {
        Command::Plan {
            tasks,
            processors,
            memory_bound,
        } => plan(tasks, processors, memory_bound).to_vec(),
        Command::Step(record) => step(record).to_vec(),
        Command::Activation(task) => activation(task).to_vec(),
        Command::Execution(task) => execution(task).to_vec(),
        Command::Begin => vec![0x05],
        Command::Done(task) => with_number(0x06, task).to_vec(),
        Command::Fetch => vec![0x07],
        Command::Places(bound) => places(bound).to_vec(),
    }
}

/// PLAN.
pub(crate) fn plan(tasks: u16, processors: u8, memory_bound: u32) -> [u8; PLAN_BYTES] {
    let [n0, n1] = tasks.to_le_bytes();
    let [m0, m1, m2, m3] = memory_bound.to_le_bytes();
    [0x01, n0, n1, processors, m0, m1, m2, m3]
}

/// STEP.
pub(crate) fn step(record: Record) -> [u8; STEP_BYTES] {
    let [p0, p1] = record.parent.to_le_bytes();
    let [w0, w1] = record.work.to_le_bytes();
    let [o0, o1] = record.out.to_le_bytes();
    [0x02, p0, p1, w0, w1, o0, o1]
}

/// Next in the activation order.
pub(crate) fn activation(task: u16) -> [u8; NUMBER_BYTES] {
    with_number(0x03, task)
}

/// Next in the execution order.
pub(crate) fn execution(task: u16) -> [u8; NUMBER_BYTES] {
    with_number(0x04, task)
}

/// A new M.
fn places(memory_bound: u32) -> [u8; PLACES_BYTES] {
    let [m0, m1, m2, m3] = memory_bound.to_le_bytes();
    [0x08, m0, m1, m2, m3]
}

fn with_number(byte: u8, number: u16) -> [u8; NUMBER_BYTES] {
    let [low, high] = number.to_le_bytes();
    [byte, low, high]
}
