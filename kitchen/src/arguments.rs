//! Options and files of a subcommand.

use crate::message::{Message, Status};
use crate::text::{nearest, quoted};
use std::ffi::{OsStr, OsString};

/// An option of a subcommand.
pub struct Switch {
    pub word: &'static str,
    /// What stands behind it, where something does.
    pub value: Option<&'static str>,
    pub about: &'static str,
}

/// What was typed behind a subcommand.
#[derive(Default, Debug)]
pub struct Arguments {
    options: Vec<(&'static str, Option<OsString>)>,
    /// Files, and other words that are no option.
    pub words: Vec<OsString>,
}

/// Behind it all words are no options.
const END: &str = "--";

impl Arguments {
    pub fn read(typed: &[OsString], known: &[&'static Switch]) -> Result<Arguments, Message> {
        let mut arguments = Arguments::default();
        let mut typed = typed.iter();
        while let Some(word) = typed.next() {
            let text = word.to_string_lossy();
            if text == END {
                arguments.words.extend(typed.cloned());
                break;
            }
            if !text.starts_with('-') || text == "-" {
                arguments.words.push(word.clone());
                continue;
            }
            let (name, behind) = match text.split_once('=') {
                Some((name, value)) if name.starts_with("--") => {
                    (name, Some(OsString::from(value)))
                }
                _ => (&*text, None),
            };
            let option = find(name, known)?;
            let value = match (option.value, behind) {
                (None, None) => None,
                (None, Some(_)) => return Err(wrong(format!("'{name}' takes no value"))),
                (Some(_), Some(value)) => Some(value),
                (Some(value), None) => {
                    let next = typed.next().cloned();
                    Some(next.ok_or_else(|| wrong(format!("'{name}' wants {value} behind it")))?)
                }
            };
            arguments.options.push((option.word, value));
        }
        Ok(arguments)
    }

    pub fn has(&self, option: &Switch) -> bool {
        self.options.iter().any(|(word, _)| *word == option.word)
    }

    /// The value of an option; of one that is said twice, the last.
    pub fn value(&self, option: &Switch) -> Option<&OsStr> {
        let mut said = self.options.iter().rev();
        let (_, value) = said.find(|(word, _)| *word == option.word)?;
        value.as_deref()
    }

    /// The one file, or standard input where none is named.
    pub fn file(&self) -> Result<&OsStr, Message> {
        match &self.words[..] {
            [] => Ok(OsStr::new(crate::input::STANDARD)),
            [file] => Ok(file),
            [_, more, ..] => Err(too_many(more)),
        }
    }
}

/// One word more than a subcommand takes.
pub fn too_many(word: &OsStr) -> Message {
    wrong(format!(
        "{} is one word too many",
        quoted(&word.to_string_lossy())
    ))
}

fn find(name: &str, known: &[&'static Switch]) -> Result<&'static Switch, Message> {
    if let Some(option) = known.iter().find(|option| option.word == name) {
        return Ok(option);
    }
    let message = wrong(format!("there is no option {}", quoted(name)));
    Err(
        match nearest(name, known.iter().map(|option| option.word)) {
            Some(word) => message.helped(format!("is '{word}' meant?")),
            None => message,
        },
    )
}

/// Wrong usage.
pub fn wrong(what: String) -> Message {
    Message::new(Status::Wrong, what)
}
