//! Commands by their names.

use crate::exported::{self, FlatCommand};
use crate::refusal::Refusal;
use std::fmt::{self, Debug, Formatter};
use std::ops::Deref;

/// A command to a plan, to be given by [`Plan::apply`](crate::Plan::apply) or
/// made bytes of. Whether it is in turn and within its limits is for the plan to
/// say.
///
/// ```
/// use cephlouk::{Command, Refusal};
///
/// assert_eq!(*Command::Done(3).encode(), [0x06, 3, 0]);
/// assert_eq!(Command::decode(&[0x06, 3, 0, 0x07]), Ok((Command::Done(3), 3)));
/// assert_eq!(Command::decode(&[0x06, 3]), Err(Refusal::CutShort));
/// ```
#[non_exhaustive]
#[derive(Clone, Copy, Debug, PartialEq, Eq, Hash)]
pub enum Command {
    /// 01: drops the old plan and opens a new one.
    Plan {
        /// How many steps it has.
        steps: u16,
        /// How many stations.
        stations: u8,
        /// How many tray places the cold room has.
        places: u32,
    },
    /// 02: the next step; the first is step 1.
    Step {
        /// The step that it feeds; 0 for the last step.
        parent: u16,
        /// The trays that it takes while it runs.
        work: u16,
        /// The trays that it leaves.
        out: u16,
    },
    /// 03: the next step in the activation order.
    Activation(u16),
    /// 04: the next step in the execution order.
    Execution(u16),
    /// 05: the day begins.
    Begin,
    /// 06: this step has ended.
    Done(u16),
    /// 07: the trolley is fetched.
    Fetch,
    /// 08: from now on the cold room has so many tray places.
    Places(u32),
}

/// The first byte of each command.
const PLAN: u8 = 0x01;
const STEP: u8 = 0x02;
const ACTIVATION: u8 = 0x03;
const EXECUTION: u8 = 0x04;
const BEGIN: u8 = 0x05;
const DONE: u8 = 0x06;
const FETCH: u8 = 0x07;
const PLACES: u8 = 0x08;

impl Command {
    /// The most bytes of a command.
    pub const MOST_BYTES: usize = 8;

    /// Its bytes.
    ///
    /// # Panics
    ///
    /// Where the library that was linked is of another version.
    #[must_use]
    pub fn encode(self) -> Encoded {
        exported::test_number();
        let mut bytes = [0; Command::MOST_BYTES];
        // SAFETY: the numbers are passed by value, and the list is lent for writing.
        let wrote =
            unsafe { exported::cephlouk_encode(self.flat(), bytes.as_mut_ptr(), bytes.len()) };
        let length = wrote.written().expect("a list that any command fits");
        Encoded { bytes, length }
    }

    /// The command at the front of some bytes, and how many of them it uses.
    ///
    /// # Errors
    ///
    /// [`Refusal::CutShort`] where there is no byte, or operands are missing, and
    /// [`Refusal::UnknownByte`] where the first byte is no command's.
    ///
    /// # Panics
    ///
    /// Where the library that was linked is of another version.
    pub fn decode(bytes: &[u8]) -> Result<(Command, usize), Refusal> {
        exported::test_number();
        // SAFETY: the bytes are lent for reading.
        let decoded = unsafe { exported::cephlouk_decode(bytes.as_ptr(), bytes.len(), 0) };
        match Refusal::of_number(decoded.number) {
            Some(refusal) => Err(refusal),
            None => Ok((Command::of_flat(decoded.command), decoded.used)),
        }
    }

    /// Its numbers, as the library takes them.
    fn flat(self) -> FlatCommand {
        let bare = |byte| FlatCommand {
            byte,
            ..FlatCommand::default()
        };
        let of_step = |byte, step| FlatCommand { step, ..bare(byte) };
        match self {
            Command::Plan {
                steps,
                stations,
                places,
            } => FlatCommand {
                stations,
                steps,
                places,
                ..bare(PLAN)
            },
            Command::Step { parent, work, out } => FlatCommand {
                parent,
                work,
                out,
                ..bare(STEP)
            },
            Command::Activation(step) => of_step(ACTIVATION, step),
            Command::Execution(step) => of_step(EXECUTION, step),
            Command::Begin => bare(BEGIN),
            Command::Done(step) => of_step(DONE, step),
            Command::Fetch => bare(FETCH),
            Command::Places(places) => FlatCommand {
                places,
                ..bare(PLACES)
            },
        }
    }

    /// The command of numbers that the library tells.
    fn of_flat(flat: FlatCommand) -> Command {
        match flat.byte {
            PLAN => Command::Plan {
                steps: flat.steps,
                stations: flat.stations,
                places: flat.places,
            },
            STEP => Command::Step {
                parent: flat.parent,
                work: flat.work,
                out: flat.out,
            },
            ACTIVATION => Command::Activation(flat.step),
            EXECUTION => Command::Execution(flat.step),
            BEGIN => Command::Begin,
            DONE => Command::Done(flat.step),
            FETCH => Command::Fetch,
            PLACES => Command::Places(flat.places),
            byte => unreachable!("the library tells no command {byte}"),
        }
    }
}

/// The bytes of a command: a slice of them, by [`Deref`].
#[derive(Clone, Copy, PartialEq, Eq, Hash)]
pub struct Encoded {
    /// Those behind the length are 0.
    bytes: [u8; Command::MOST_BYTES],
    length: usize,
}

impl Deref for Encoded {
    type Target = [u8];

    fn deref(&self) -> &[u8] {
        &self.bytes[..self.length]
    }
}

impl AsRef<[u8]> for Encoded {
    fn as_ref(&self) -> &[u8] {
        self
    }
}

impl Debug for Encoded {
    fn fmt(&self, to: &mut Formatter) -> fmt::Result {
        Debug::fmt(&**self, to)
    }
}
