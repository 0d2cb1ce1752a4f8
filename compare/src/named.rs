//! Commands by their names, as the proved library has them.

use cephlouk::Command;
use compare::commands::Read;
use peer::Record;

/// The command at the front of some bytes, and the bytes that are made of it.
pub fn read(bytes: &[u8]) -> Read {
    match Command::decode(bytes) {
        Ok((command, used)) => Ok((of_peer(command), used, command.encode().to_vec())),
        Err(refusal) => Err(refusal.number()),
    }
}

/// As the peer has it.
fn of_peer(command: Command) -> peer::Command {
    match command {
        Command::Plan {
            steps,
            stations,
            places,
        } => peer::Command::Plan {
            tasks: steps,
            processors: stations,
            memory_bound: places,
        },
        Command::Step { parent, work, out } => peer::Command::Step(Record { parent, work, out }),
        Command::Activation(step) => peer::Command::Activation(step),
        Command::Execution(step) => peer::Command::Execution(step),
        Command::Begin => peer::Command::Begin,
        Command::Done(step) => peer::Command::Done(step),
        Command::Fetch => peer::Command::Fetch,
        Command::Places(places) => peer::Command::Places(places),
        other => unreachable!("the peer has no {other:?}"),
    }
}
