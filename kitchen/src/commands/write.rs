//! `cephlouk write`: the one written form of a plan.

use super::{Subcommand, DONE, OUTPUT};
use crate::arguments::{wrong, Arguments, Switch};
use crate::console::{Console, Stop};
use crate::json::Object;
use crate::load::{load, Loaded, Scope};
use crate::message::Message;
use crate::output::write_to;
use crate::text::{commands, tidy};
use cephlouk::{Plan, Refusal};
use std::io::{stdout, IsTerminal};

pub static WRITE: Subcommand = Subcommand {
    name: "write",
    usage: "[FILE] [--bytes] [-o FILE]",
    about: "the one form of a plan, with its names: all texts of one plan give the same",
    switches: &[&BYTES, &OUTPUT],
    run: write,
};

pub static BYTES: Switch = Switch {
    word: "--bytes",
    value: None,
    about: "its commands as bytes; to a terminal with '-o -' only",
};

fn write(console: &mut Console, arguments: &Arguments) -> Result<u8, Stop> {
    let loaded = load(arguments.file()?, Scope::Day)?;
    let bytes = written(&loaded)?;
    let output = arguments.value(&OUTPUT);
    if arguments.has(&BYTES) {
        if output.is_none() && stdout().is_terminal() {
            let message = wrong("bytes do not go to a terminal".to_string());
            return Err(message
                .helped("'-o FILE' writes a file, '-o -' forces it")
                .into());
        }
        write_to(console, output, &bytes)?;
        return Ok(DONE);
    }
    let text = tidy(&commands(&bytes).0, &loaded.day.sheet);
    let text = match console.is_json {
        true => Object::new().text("plan", &text).end() + "\n",
        false => text,
    };
    write_to(console, output, text.as_bytes())?;
    Ok(DONE)
}

/// The bytes that the library writes of the plan.
fn written(loaded: &Loaded) -> Result<Vec<u8>, Message> {
    let plan = &loaded.day.plan;
    let mut bytes = vec![0; Plan::MOST_BYTES];
    let count = plan.write(&mut bytes).map_err(|refusal: Refusal| {
        let sheet = &loaded.day.sheet;
        let is_full = !sheet.steps.is_empty() && sheet.activation.len() == sheet.steps.len();
        let what = match is_full && sheet.execution.is_empty() {
            true => "no execution order, and no 'begin' to use the activation order for both",
            false => "no plan with both orders complete at the end",
        };
        Message {
            refused: Some(refusal.number()),
            ..loaded.message(what)
        }
    })?;
    bytes.truncate(count);
    Ok(bytes)
}
