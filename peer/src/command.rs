//! Commands: one byte and operands of fixed width, lowest byte first.

use crate::record::Record;
use crate::refusal::Refusal;

/// One command with its operands, not yet checked against any plan.
#[derive(Clone, Copy, Debug, PartialEq, Eq)]
pub enum Command {
    /// 01, PLAN: n, p and M.
    Plan {
        tasks: u16,
        processors: u8,
        memory_bound: u32,
    },
    /// 02, STEP: the next task.
    Step(Record),
    /// 03: next in the activation order.
    Activation(u16),
    /// 04: next in the execution order.
    Execution(u16),
    /// 05, BEGIN.
    Begin,
    /// 06, DONE: this task has ended.
    Done(u16),
    /// 07, FETCH.
    Fetch,
    /// 08: a new M.
    Places(u32),
}

/// The bytes of PLAN.
pub(crate) const PLAN_BYTES: usize = 8;
/// The bytes of STEP.
pub(crate) const STEP_BYTES: usize = 7;
/// The bytes of a command with one step number.
pub(crate) const NUMBER_BYTES: usize = 3;
/// The bytes of 08.
pub(crate) const PLACES_BYTES: usize = 5;
/// The bytes of a command without operands.
const BARE_BYTES: usize = 1;

/// Reads the command at a place in a stream and tells how many bytes it uses.
/// The checks come in the paper's order: no byte, unknown byte, cut operands.
pub fn decode(stream: &[u8], place: usize) -> Result<(Command, usize), Refusal> {
    let rest = stream.get(place..).unwrap_or(&[]);
    let (&byte, operands) = rest.split_first().ok_or(Refusal::Cut)?;
    match byte {
        0x01 => {
            let [n0, n1, p, m0, m1, m2, m3] = take(operands)?;
            let command = Command::Plan {
                tasks: u16::from_le_bytes([n0, n1]),
                processors: p,
                memory_bound: u32::from_le_bytes([m0, m1, m2, m3]),
            };
            Ok((command, PLAN_BYTES))
        }
        0x02 => {
            let [p0, p1, w0, w1, o0, o1] = take(operands)?;
            let record = Record {
                parent: u16::from_le_bytes([p0, p1]),
                work: u16::from_le_bytes([w0, w1]),
                out: u16::from_le_bytes([o0, o1]),
            };
            Ok((Command::Step(record), STEP_BYTES))
        }
        0x03 => Ok((Command::Activation(number(operands)?), NUMBER_BYTES)),
        0x04 => Ok((Command::Execution(number(operands)?), NUMBER_BYTES)),
        0x05 => Ok((Command::Begin, BARE_BYTES)),
        0x06 => Ok((Command::Done(number(operands)?), NUMBER_BYTES)),
        0x07 => Ok((Command::Fetch, BARE_BYTES)),
        0x08 => {
            let bound = take(operands).map(u32::from_le_bytes)?;
            Ok((Command::Places(bound), PLACES_BYTES))
        }
        _ => Err(Refusal::UnknownByte),
    }
}

/// An operand that is one step number.
fn number(operands: &[u8]) -> Result<u16, Refusal> {
    take(operands).map(u16::from_le_bytes)
}

/// The first `WIDTH` bytes of the operands.
fn take<const WIDTH: usize>(operands: &[u8]) -> Result<[u8; WIDTH], Refusal> {
    operands.first_chunk().copied().ok_or(Refusal::Cut)
}
