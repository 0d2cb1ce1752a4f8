//! A whole text taken up, for the subcommands that ask the plan afterwards.

use crate::console::Stop;
use crate::day::Day;
use crate::explain;
use crate::input::Input;
use crate::message::{Message, Status};
use crate::script::{refused, Next, Script};
use crate::text::Given;
use cephlouk::Command;
use std::ffi::{OsStr, OsString};

/// Which of a text's commands are given to the plan; all are read.
#[derive(Clone, Copy, PartialEq, Eq, PartialOrd, Ord)]
pub enum Scope {
    /// The plan and its steps.
    Steps,
    /// And its orders.
    Orders,
    /// And its day.
    Day,
}

impl Scope {
    fn has(self, command: Command) -> bool {
        let needed = match command {
            Command::Plan { .. } | Command::Step { .. } => Scope::Steps,
            Command::Activation(_) | Command::Execution(_) => Scope::Orders,
            _ => Scope::Day,
        };
        self >= needed
    }
}

/// A text that was taken up.
pub struct Loaded {
    pub day: Day,
    /// Its name in messages.
    pub file: String,
    pub path: Option<OsString>,
    /// The commands of its last plan that were passed over.
    pub passed: Vec<Given>,
    /// The line of its last step.
    pub last_step: usize,
}

impl Loaded {
    pub fn message(&self, what: impl Into<String>) -> Message {
        Message::new(Status::Refused, what).about(&self.file)
    }
}

/// Takes up a text, or tells what is wrong with it first.
pub fn load(name: &OsStr, scope: Scope) -> Result<Loaded, Stop> {
    let mut script = Script::of(Input::open(name)?);
    let mut day = Day::default();
    let mut passed = Vec::new();
    let mut last_step = 0;
    loop {
        match script.next(&day)? {
            Next::Command(given) if scope.has(given.command) => {
                if matches!(given.command, Command::Plan { .. }) {
                    passed.clear();
                }
                if matches!(given.command, Command::Step { .. }) {
                    last_step = given.place.line;
                }
                if let Err(refusal) = day.give(&given) {
                    let file = script.input.path.as_ref().map(|_| &*script.input.shown);
                    let explained = explain::refusal(&day, given.command, refusal, file);
                    return Err(
                        refused(&script.input.shown, given.place, refusal, explained).into(),
                    );
                }
            }
            Next::Command(given) => passed.push(given),
            Next::Ask(_, place) => {
                let what = format!("'{}' may be asked in 'cephlouk run' only", place.said());
                let message = Message::new(Status::Wrong, what).about(&script.input.shown);
                return Err(Message {
                    place: Some(place),
                    ..message
                }
                .into());
            }
            Next::Wrong(message) => return Err(message.into()),
            Next::End => break,
        }
    }
    Ok(Loaded {
        day,
        file: script.input.shown,
        path: script.input.path,
        passed,
        last_step,
    })
}
