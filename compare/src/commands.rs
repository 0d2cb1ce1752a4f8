//! Commands read from bytes and made bytes of again, beside the peer's.

use peer::generate::{encode, Random};
use peer::{decode, Command};

/// What stands at the front of some bytes: a command, how many bytes it uses and
/// the bytes that are made of it; or the number of the refusal.
pub type Read = Result<(Command, usize, Vec<u8>), u8>;

/// The highest first byte: the next after those that are known.
const HIGHEST: u32 = 9;
/// More bytes than any command has.
const MOST: usize = 12;

/// Compares what is read of so many lists of bytes. An error tells the first
/// difference.
pub fn compare_commands(read: impl Fn(&[u8]) -> Read, cases: u64) -> Result<(), String> {
    let random = &mut Random::new(1);
    for _ in 0..cases {
        let mut bytes = random.bytes(MOST);
        if let Some(first) = bytes.first_mut() {
            *first = random.between(0, HIGHEST) as u8;
        }
        let (got, wanted) = (read(&bytes), read_by_peer(&bytes));
        if got != wanted {
            return Err(format!("{bytes:02x?}: proved {got:?}, peer {wanted:?}"));
        }
    }
    Ok(())
}

fn read_by_peer(bytes: &[u8]) -> Read {
    match decode(bytes, 0) {
        Ok((command, used)) => Ok((command, used, encode(command))),
        Err(refusal) => Err(refusal.number()),
    }
}

#[cfg(test)]
mod tests {
    use super::*;

    /// What is told of the peer with a fault in what it reads.
    fn told(fault: impl Fn(Read) -> Read) {
        let faulty = |bytes: &[u8]| fault(read_by_peer(bytes));
        compare_commands(faulty, 10_000).expect_err("a difference");
    }

    #[test]
    fn the_peer_is_like_itself() {
        assert_eq!(compare_commands(read_by_peer, 10_000), Ok(()));
    }

    /// Of each kind, a command that differs in one bit of its last byte, which is
    /// BEGIN for FETCH and FETCH for BEGIN; and its bytes with that bit changed.
    #[test]
    fn another_command_is_told() {
        const BIT: u8 = 0x05 ^ 0x07;
        for byte in 1..HIGHEST as u8 {
            let others = |bytes: &[u8]| {
                let mut others = bytes.to_vec();
                *others.last_mut().expect("a byte") ^= BIT;
                others
            };
            told(|read| match read {
                Ok((_, used, bytes)) if bytes[0] == byte => {
                    let (other, _) = decode(&others(&bytes), 0).expect("a command");
                    Ok((other, used, bytes))
                }
                other => other,
            });
            told(|read| match read {
                Ok((command, used, bytes)) if bytes[0] == byte => {
                    Ok((command, used, others(&bytes)))
                }
                other => other,
            });
        }
    }

    #[test]
    fn a_wrong_count_is_told() {
        told(|read| read.map(|(command, used, bytes)| (command, used + 1, bytes)));
    }

    #[test]
    fn a_wrong_refusal_is_told() {
        told(|read| read.map_err(|_| 1));
        told(|read| read.map_err(|_| 2));
    }
}
