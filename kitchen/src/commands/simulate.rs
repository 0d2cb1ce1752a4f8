//! `cephlouk simulate`: the whole day by the minutes of its steps.

use super::{Subcommand, DONE};
use crate::arguments::Arguments;
use crate::console::{Console, Stop};
use crate::explain;
use crate::json::{list, Object};
use crate::load::{load, Loaded, Scope};
use crate::message::Message;
use crate::picture::{Timeline, Undrawn};
use crate::tell::counted;
use cephlouk::{Command, Refusal};

pub static SIMULATE: Subcommand = Subcommand {
    name: "simulate",
    usage: "[FILE]",
    about: "the whole day by the minutes of the steps: when each starts and ends",
    switches: &[],
    run,
};

fn run(console: &mut Console, arguments: &Arguments) -> Result<u8, Stop> {
    let loaded = load(arguments.file()?, Scope::Orders)?;
    minutes_of(&loaded)?;
    let timeline = Timeline::of(loaded.day.clone()).map_err(|why| undrawn(&loaded, why))?;
    let text = if console.is_json {
        json(&timeline)
    } else {
        table(&timeline)
    };
    console.bytes(text.as_bytes())?;
    Ok(DONE)
}

/// The minutes of all steps.
pub fn minutes_of(loaded: &Loaded) -> Result<Vec<u32>, Stop> {
    loaded.day.sheet.minutes().map_err(|step| {
        let label = loaded.day.sheet.label(step);
        let message = loaded.message(format!("step {label} has no minutes"));
        message.helped("'minutes N' at the end of its line").into()
    })
}

/// There is no day to be drawn.
pub fn undrawn(loaded: &Loaded, why: Undrawn) -> Stop {
    match why {
        Undrawn::NoPlan => loaded.message("there is no plan in it").into(),
        Undrawn::NoMinutes(step) => {
            let label = loaded.day.sheet.label(step);
            let what =
                format!("it has no day to draw, and step {label} has no minutes to make one by");
            let help = "'begin' and its reports, or 'minutes N' at each step";
            loaded.message(what).helped(help).into()
        }
        Undrawn::Refused(refusal) => unsimulated(loaded, refusal),
    }
}

/// The plan cannot begin.
pub fn unsimulated(loaded: &Loaded, refusal: Refusal) -> Stop {
    let file = loaded.path.as_ref().map(|_| &*loaded.file);
    let explained = explain::refusal(&loaded.day, Command::Begin, refusal, file);
    Message {
        refused: Some(refusal.number()),
        help: explained.help,
        ..loaded.message(explained.what)
    }
    .into()
}

/// When a step starts and ends, and at which station.
struct Row {
    step: u16,
    station: usize,
    start: u32,
    end: u32,
}

/// The steps as they start.
fn rows(timeline: &Timeline) -> Vec<Row> {
    let mut rows: Vec<Row> = timeline
        .day
        .sheet
        .numbers()
        .zip(&timeline.ways)
        .map(|(step, way)| Row {
            step,
            station: way.station + 1,
            start: timeline.time(way.started),
            end: timeline.time(way.ended),
        })
        .collect();
    rows.sort_by_key(|row| (row.start, row.station));
    rows
}

fn table(timeline: &Timeline) -> String {
    let sheet = &timeline.day.sheet;
    let mut text = String::from("start    end  station  step\n");
    for row in rows(timeline) {
        let label = sheet.label(row.step);
        text += &format!(
            "{:>5}  {:>5}  {:>7}  {label}\n",
            row.start, row.end, row.station
        );
    }
    let length = timeline.length.unwrap_or(0);
    let minutes = counted(length.into(), "minute", "minutes");
    text + &format!("the day takes {minutes}\n")
}

fn json(timeline: &Timeline) -> String {
    let rows = rows(timeline).into_iter().map(|row| {
        Object::new()
            .number("step", row.step)
            .number("station", row.station as u64)
            .number("start", row.start)
            .number("end", row.end)
            .end()
    });
    let length = timeline.length.unwrap_or(0);
    Object::new()
        .number("minutes", length)
        .value("steps", &list(rows))
        .end()
        + "\n"
}
