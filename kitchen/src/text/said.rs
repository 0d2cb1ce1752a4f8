//! What a line of a text says.

use super::clock::Clock;
use super::place::Place;
use cephlouk::Command;
use std::rc::Rc;

/// One thing that a line says.
#[derive(Clone, Debug)]
pub enum Said {
    Command(Given),
    /// An order is to be found, and given.
    Find(Order, Place),
    /// A question of whoever types.
    Ask(Question, Place),
}

/// A command with all that the text says beside it.
#[derive(Clone, Debug)]
pub struct Given {
    pub command: Command,
    /// The title of a plan, or the name of a step.
    pub name: Option<Rc<str>>,
    /// How long a step takes.
    pub minutes: Option<u16>,
    /// When it was.
    pub at: Option<Clock>,
    pub place: Place,
}

impl Given {
    /// A command with nothing beside it.
    pub fn plain(command: Command, place: Place) -> Given {
        Given {
            command,
            name: None,
            minutes: None,
            at: None,
            place,
        }
    }
}

#[derive(Clone, Copy, Debug, PartialEq, Eq)]
pub enum Order {
    Activation,
    Execution,
}

impl Order {
    pub fn word(self) -> &'static str {
        match self {
            Order::Activation => "activation",
            Order::Execution => "execution",
        }
    }

    /// The command that gives the next entry of it.
    pub fn entry(self, step: u16) -> Command {
        match self {
            Order::Activation => Command::Activation(step),
            Order::Execution => Command::Execution(step),
        }
    }
}

#[derive(Clone, Debug)]
pub enum Question {
    /// Why some steps are not starting; of none said, of all that have not
    /// started.
    Why(Vec<u16>),
    /// How the day stands.
    Standing,
    /// What would come of commands.
    If(Vec<Given>),
    /// What may be typed.
    Help,
}
