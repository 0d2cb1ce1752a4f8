//! `cephlouk order`: a good activation order, and what it saves.

use super::{Subcommand, DONE};
use crate::arguments::{wrong, Arguments, Switch};
use crate::console::{Console, Stop};
use crate::explain::no_order;
use crate::json::Object;
use crate::load::{load, Loaded, Scope};
use crate::message::Message;
use crate::rewrite::{rewrite, Wanted};
use crate::text::{order_lines, Order};
use cephlouk::{desk_peak, Command, DeskPeak, Refusal};

pub static ORDER: Subcommand = Subcommand {
    name: "order",
    usage: "[FILE] [--write]",
    about: "a good activation order and what it saves; with minutes an execution order too",
    switches: &[&WRITE],
    run: order,
};

static WRITE: Switch = Switch {
    word: "--write",
    value: None,
    about: "puts the lines into the file in place of its activation lines",
};

fn order(console: &mut Console, arguments: &Arguments) -> Result<u8, Stop> {
    // Only the steps are given: an order that is refused does no harm.
    let loaded = load(arguments.file()?, Scope::Steps)?;
    let activation = found(&loaded, Order::Activation)?;
    let peak = peak_of(&loaded, &activation);
    let typed = typed(&loaded, Order::Activation);
    let was = peak_of(&loaded, &typed);
    let execution = match is_execution_wanted(&loaded) {
        true => Some(found(&loaded, Order::Execution)?),
        false => None,
    };
    let lines = Lines {
        activation,
        execution,
        peak,
        was,
    };
    if arguments.has(&WRITE) {
        write(&loaded, &lines)?;
    }
    let text = if console.is_json {
        lines.json() + "\n"
    } else {
        lines.text()
    };
    console.bytes(text.as_bytes())?;
    Ok(DONE)
}

/// An order that was typed is what the kitchen wants, and stays.
fn is_execution_wanted(loaded: &Loaded) -> bool {
    loaded.day.sheet.minutes().is_ok() && typed(loaded, Order::Execution).is_empty()
}

/// What was found.
struct Lines {
    activation: Vec<u16>,
    execution: Option<Vec<u16>>,
    peak: Option<DeskPeak>,
    /// Of the order that was typed.
    was: Option<DeskPeak>,
}

impl Lines {
    fn text(&self) -> String {
        let mut text = order_lines("activation", &self.activation);
        text.pop();
        text += &match (self.peak, self.was) {
            (Some(now), Some(was)) => format!("   # peak {}, was {}\n", now.peak, was.peak),
            (Some(now), None) => format!("   # peak {}\n", now.peak),
            _ => "\n".to_string(),
        };
        if let Some(execution) = &self.execution {
            text += &order_lines("execution", execution);
        }
        text
    }

    fn json(&self) -> String {
        let mut object = Object::new().numbers("activation", &self.activation);
        if let Some(DeskPeak { peak, by, .. }) = self.peak {
            object = object.number("peak", peak).number("by", by);
        }
        if let Some(was) = self.was {
            object = object.number("was", was.peak);
        }
        if let Some(execution) = &self.execution {
            object = object.numbers("execution", execution);
        }
        object.end()
    }
}

fn found(loaded: &Loaded, order: Order) -> Result<Vec<u16>, Message> {
    loaded.day.found(order).map_err(|refusal: Refusal| Message {
        refused: Some(refusal.number()),
        ..loaded.message(no_order(&loaded.day, refusal).what)
    })
}

/// The entries that the text gives of an order.
fn typed(loaded: &Loaded, order: Order) -> Vec<u16> {
    let entry = |command| match (order, command) {
        (Order::Activation, Command::Activation(step)) => Some(step),
        (Order::Execution, Command::Execution(step)) => Some(step),
        _ => None,
    };
    let passed = loaded.passed.iter();
    passed.filter_map(|given| entry(given.command)).collect()
}

/// The peak of an order, where it is one.
fn peak_of(loaded: &Loaded, order: &[u16]) -> Option<DeskPeak> {
    desk_peak(&loaded.day.sheet.records(), order).ok()
}

/// Puts the lines into the file.
fn write(loaded: &Loaded, lines: &Lines) -> Result<(), Stop> {
    let Some(path) = &loaded.path else {
        return Err(wrong("'--write' wants a file to write to".to_string()).into());
    };
    let line_of = |given: &crate::text::Given| given.place.line;
    let replaced: Vec<usize> = loaded
        .passed
        .iter()
        .filter(|given| matches!(given.command, Command::Activation(_)))
        .map(line_of)
        .collect();
    rewrite(
        path,
        &Wanted {
            replaced,
            behind: loaded.last_step,
            text: lines.text(),
        },
    )
}
