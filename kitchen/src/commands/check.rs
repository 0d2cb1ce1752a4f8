//! `cephlouk check`: whether texts can be run.

use super::{Subcommand, DONE};
use crate::arguments::{wrong, Arguments};
use crate::console::{Console, Stop};
use crate::explain;
use crate::json::Object;
use crate::load::{load, Loaded, Scope};
use crate::message::Message;
use crate::tell::{self, counted, places};
use cephlouk::{Command, Phase};
use std::ffi::OsStr;

pub static CHECK: Subcommand = Subcommand {
    name: "check",
    usage: "FILE ...",
    about: "whether plans are right: the peak, or the first fault",
    switches: &[],
    run: check,
};

fn check(console: &mut Console, arguments: &Arguments) -> Result<u8, Stop> {
    if arguments.words.is_empty() {
        return Err(wrong("'check' wants a file".to_string()).into());
    }
    let mut worst = DONE;
    for file in &arguments.words {
        match check_one(console, file) {
            Ok(()) => {}
            Err(Stop::Message(message)) => {
                worst = worst.max(message.status as u8);
                console.tell(&message)?;
            }
            Err(unread) => return Err(unread),
        }
    }
    Ok(worst)
}

fn check_one(console: &mut Console, file: &OsStr) -> Result<(), Stop> {
    let loaded = load(file, Scope::Day)?;
    let (peak, by) = peak_of(&loaded)?;
    let sheet = &loaded.day.sheet;
    let (given, label) = (places(sheet.places.into()), sheet.label(by));
    let line = match console.is_json {
        true => Object::new()
            .text("file", &loaded.file)
            .truth("ok", true)
            .number("peak", peak)
            .number("by", by)
            .number("places", sheet.places)
            .text("standing", &tell::phase(&loaded.day))
            .end(),
        false => format!(
            "{}: ok, peak {peak} at {label}, {given}{}",
            loaded.file,
            so_far(&loaded)
        ),
    };
    console.line(&line)
}

/// The peak that BEGIN told, or tells on a copy where the day has not begun.
fn peak_of(loaded: &Loaded) -> Result<(u64, u16), Message> {
    let day = &loaded.day;
    if let Some(begun) = day.moments.first() {
        return Ok((begun.peak, begun.by));
    }
    let mut copy = day.plan.clone();
    let answer = copy
        .apply(Command::Begin)
        .map(|begun| (begun.peak, begun.by));
    answer.map_err(|refusal| {
        let file = loaded.path.as_ref().map(|_| &*loaded.file);
        let explained = explain::refusal(day, Command::Begin, refusal, file);
        Message {
            refused: Some(refusal.number()),
            help: explained.help,
            ..loaded.message(explained.what)
        }
    })
}

/// How far its day has come, where it has begun and is not over.
fn so_far(loaded: &Loaded) -> String {
    let steps = counted(loaded.day.sheet.steps.len() as u64, "step", "steps");
    match loaded.day.plan.phase() {
        Phase::Running => {
            let ended = loaded.day.plan.standing().finished;
            format!("; {ended} of {steps} done")
        }
        Phase::Ready => "; not fetched".to_string(),
        _ => String::new(),
    }
}
