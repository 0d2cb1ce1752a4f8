//! Commands that do not belong where they come.

use super::random::Random;
use crate::command::Command;
use crate::encode::encode;
use crate::record::Record;

/// Any whole command, with numbers around the limits of a plan of n tasks.
pub(crate) fn any_command(random: &mut Random, n: u16) -> Vec<u8> {
    let command = match random.between(0, 9) {
        0 => Command::Plan {
            tasks: random.pick(&[0, 1, n, 1024, 1025, 65_535]),
            processors: random.pick(&[0, 1, 64, 65, 255]),
            memory_bound: random.pick(&[0, 7, u32::MAX]),
        },
        1 => Command::Step(Record {
            parent: number(random, n),
            work: random.pick(&[0, 1, 65_535]),
            out: random.pick(&[0, 1, 65_535]),
        }),
        2 => Command::Activation(number(random, n)),
        3 => Command::Execution(number(random, n)),
        4 => Command::Begin,
        5 => Command::Fetch,
        6 => Command::Places(random.pick(&[0, 7, u32::MAX])),
        _ => Command::Done(number(random, n)),
    };
    encode(command)
}

/// A step number, mostly within 1 to n.
fn number(random: &mut Random, n: u16) -> u16 {
    if random.chance(75) {
        random.between(1, n.into()) as u16
    } else {
        random.pick(&[0, n + 1, n + 256, 65_535])
    }
}

/// A byte that is none of 01 to 08, with any bytes after it.
pub(crate) fn unknown_byte(random: &mut Random) -> Vec<u8> {
    let any = random.between(0x09, 0xff) as u8;
    let mut bytes = vec![random.pick(&[0x00, 0x09, 0x0a, 0x0b, 0x11, 0x12, 0xff, any])];
    bytes.extend(random.bytes(6));
    bytes
}

/// The front of a command, cut at any byte.
pub(crate) fn cut(random: &mut Random, command: &[u8]) -> Vec<u8> {
    command[..random.below(command.len())].to_vec()
}

#[cfg(test)]
mod tests {
    use super::*;
    use crate::command::decode;
    use crate::refusal::Refusal;

    #[test]
    fn unknown_bytes_are_unknown() {
        let mut random = Random::new(41);
        for _ in 0..2000 {
            let bytes = unknown_byte(&mut random);
            assert_eq!(decode(&bytes, 0), Err(Refusal::UnknownByte), "{bytes:02x?}");
        }
    }
}
