//! From the bytes of a stream to its commands.

use cephlouk::{Command, Refusal};

/// What is wrong with a stream, and at which byte, counted from 0.
#[derive(Clone, Debug, PartialEq, Eq)]
pub struct Broken {
    pub byte: usize,
    pub what: String,
}

/// The whole commands at the front of a stream, and what is wrong behind them.
pub fn commands(stream: &[u8]) -> (Vec<Command>, Option<Broken>) {
    let mut commands = Vec::new();
    let mut byte = 0;
    while byte < stream.len() {
        match Command::decode(&stream[byte..]) {
            Ok((command, used)) => {
                commands.push(command);
                byte += used;
            }
            Err(refusal) => {
                let what = told(refusal, stream[byte]);
                return (commands, Some(Broken { byte, what }));
            }
        }
    }
    (commands, None)
}

fn told(refusal: Refusal, byte: u8) -> String {
    match refusal {
        Refusal::CutShort => format!("the command {byte:02x} is cut short"),
        _ => format!("{byte:02x} is no command"),
    }
}
