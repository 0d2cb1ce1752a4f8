//! The subcommands, one a file.

mod check;
mod completions;
mod help;
mod order;
mod peak;
mod picture;
mod read;
mod run;
mod simulate;
mod sweep;
mod why;
mod write;

use crate::arguments::{wrong, Arguments, Switch};
use crate::console::{Console, Stop};
use crate::text::{nearest, quoted};
use std::ffi::OsString;
use std::process::ExitCode;

pub struct Subcommand {
    pub name: &'static str,
    /// What stands behind its name.
    pub usage: &'static str,
    pub about: &'static str,
    pub switches: &'static [&'static Switch],
    run: fn(&mut Console, &Arguments) -> Result<u8, Stop>,
}

/// All went well.
const DONE: u8 = 0;

pub static SUBCOMMANDS: [&Subcommand; 12] = [
    &run::RUN,
    &check::CHECK,
    &why::WHY,
    &order::ORDER,
    &peak::PEAK,
    &write::WRITE,
    &read::READ,
    &simulate::SIMULATE,
    &sweep::SWEEP,
    &picture::PICTURE,
    &help::HELP,
    &completions::COMPLETIONS,
];

/// Each subcommand has these too.
pub static COMMON: [&Switch; 2] = [&JSON, &ASKED_HELP];

pub static JSON: Switch = Switch {
    word: "--json",
    value: None,
    about: "answers as JSON, an object a line",
};

static ASKED_HELP: Switch = Switch {
    word: "--help",
    value: None,
    about: "what the subcommand does",
};

/// Writes to a file; shared by the subcommands that draw or write.
pub static OUTPUT: Switch = Switch {
    word: "-o",
    value: Some("FILE"),
    about: "writes to a file; - is standard output",
};

/// Runs the command, and answers its exit status.
pub fn main(typed: &[OsString]) -> ExitCode {
    let is_json = typed.iter().any(|word| word == JSON.word);
    let mut console = Console::new(is_json);
    let result = dispatch(typed, &mut console).and_then(|status| {
        console.flush()?;
        Ok(status)
    });
    ExitCode::from(match result {
        Ok(status) => status,
        Err(Stop::Unread) => DONE,
        Err(Stop::Message(message)) => {
            // Where this fails too, the status is all that is left.
            let _ = console.tell(&message).and_then(|()| console.flush());
            message.status as u8
        }
    })
}

fn dispatch(typed: &[OsString], console: &mut Console) -> Result<u8, Stop> {
    let first = typed.iter().position(|word| word != JSON.word);
    let Some(first) = first else {
        return Err(wrong("a subcommand is missing".to_string())
            .helped("'cephlouk help' lists them")
            .into());
    };
    let name = typed[first].to_string_lossy();
    match &*name {
        "--version" | "-V" => {
            console.line(concat!("cephlouk ", env!("CARGO_PKG_VERSION")))?;
            return Ok(DONE);
        }
        "--help" | "-h" => return help::all(console),
        _ => {}
    }
    let Some(subcommand) = SUBCOMMANDS
        .iter()
        .find(|subcommand| subcommand.name == name)
    else {
        return Err(unknown(&name));
    };
    let known: Vec<&'static Switch> = subcommand.switches.iter().chain(&COMMON).copied().collect();
    let arguments = Arguments::read(&typed[first + 1..], &known)?;
    if arguments.has(&ASKED_HELP) {
        return help::one(console, subcommand);
    }
    (subcommand.run)(console, &arguments)
}

fn unknown(name: &str) -> Stop {
    let kind = if name.starts_with('-') {
        "option"
    } else {
        "subcommand"
    };
    let message = wrong(format!("there is no {kind} {}", quoted(name)));
    let names = SUBCOMMANDS.iter().map(|subcommand| subcommand.name);
    let help = match nearest(name, names) {
        Some(meant) => format!("is '{meant}' meant? 'cephlouk help' lists all"),
        None => "'cephlouk help' lists them".to_string(),
    };
    message.helped(help).into()
}
