//! `cephlouk why`: why steps are not starting, after a text's reports.

use super::{Subcommand, DONE};
use crate::arguments::{too_many, wrong, Arguments};
use crate::console::{Console, Stop};
use crate::json::Object;
use crate::load::{load, Loaded, Scope};
use crate::message::Status;
use crate::tell;
use crate::text::quoted;
use cephlouk::{Phase, Reason};
use std::ffi::OsStr;

pub static WHY: Subcommand = Subcommand {
    name: "why",
    usage: "FILE [STEP]",
    about: "why a step is not starting, after the reports of a text",
    switches: &[],
    run: why,
};

fn why(console: &mut Console, arguments: &Arguments) -> Result<u8, Stop> {
    let (file, step) = match &arguments.words[..] {
        [] => return Err(wrong("'why' wants a file".to_string()).into()),
        [file] => (file, None),
        [file, step] => (file, Some(step)),
        [_, _, more, ..] => return Err(too_many(more).into()),
    };
    let loaded = load(file, Scope::Day)?;
    let day = &loaded.day;
    let step = step.map(|step| step_of(&loaded, step)).transpose()?;
    if day.plan.phase() != Phase::Running {
        return Err(loaded.message(tell::phase(day)).into());
    }
    let asked = step.map_or_else(|| tell::unstarted(day), |step| vec![step]);
    for number in asked {
        let line = match console.is_json {
            true => as_json(&loaded, number),
            false => tell::why(day, number),
        };
        console.line(&line)?;
    }
    Ok(DONE)
}

/// The step of a number or a name.
fn step_of(loaded: &Loaded, word: &OsStr) -> Result<u16, Stop> {
    let (word, sheet) = (word.to_string_lossy(), &loaded.day.sheet);
    let number = word
        .parse()
        .ok()
        .filter(|number| sheet.numbers().contains(number));
    sheet.named(&word).or(number).ok_or_else(|| {
        let what = format!(
            "no step is {}: there are {}",
            quoted(&word),
            sheet.steps.len()
        );
        let mut message = loaded.message(what);
        message.status = Status::Wrong;
        message.into()
    })
}

fn as_json(loaded: &Loaded, number: u16) -> String {
    let day = &loaded.day;
    let object = Object::new().number("step", number);
    match day.plan.why(number) {
        Ok(Reason::Ended) => object.text("reason", "ended"),
        Ok(Reason::Running) => object.text("reason", "running"),
        Ok(Reason::NotBooked { first, lack }) => object
            .text("reason", "not booked")
            .number("first", first)
            .number("lacks", lack),
        Ok(Reason::Unfed(child)) => object.text("reason", "unfed").number("child", child),
        Ok(Reason::NoProcessor) => object.text("reason", "no station"),
        _ => object,
    }
    .text("answer", &tell::why(day, number))
    .end()
}
