//! From commands to text: the one tidy form of each line.

use super::said::Given;
use crate::sheet::Sheet;
use cephlouk::Command;
use std::fmt::Write;

/// How many steps of a list stand on one line.
const PER_LINE: usize = 16;

/// The text of commands. Names and minutes are those of a sheet, of the plan
/// that the commands open; of any other commands it has none.
pub fn tidy(commands: &[Command], sheet: &Sheet) -> String {
    let mut text = String::new();
    let mut steps = 0;
    for alike in commands.chunk_by(share_a_line) {
        for line in alike.chunks(PER_LINE) {
            match line[0] {
                Command::Plan { .. } => {
                    // A plan stands apart from what is above it.
                    if !text.is_empty() {
                        text.push('\n');
                    }
                    steps = 0;
                    text += &line_of(line, sheet.title.as_deref(), None, steps);
                }
                Command::Step { .. } => {
                    let given = sheet.steps.get(steps);
                    steps += 1;
                    let name = given.and_then(|step| step.name.as_deref());
                    text += &line_of(line, name, given.and_then(|step| step.minutes), steps);
                }
                _ => text += &line_of(line, None, None, steps),
            }
            text.push('\n');
        }
    }
    text
}

/// The line of one command, with all that was said beside it; a step has its
/// number.
pub fn one_line(given: &Given, step: usize) -> String {
    let mut line = line_of(&[given.command], given.name.as_deref(), given.minutes, step);
    if let Some(time) = given.at {
        // Nothing goes wrong in writing to a string, here and below.
        let _ = write!(line, " at {time}");
    }
    line
}

/// The lines of an order.
pub fn order_lines(word: &str, order: &[u16]) -> String {
    let mut text = String::new();
    for line in order.chunks(PER_LINE) {
        text += &list(word, line);
        text.push('\n');
    }
    text
}

/// Entries of one list that follow one another.
fn share_a_line(one: &Command, next: &Command) -> bool {
    matches!(
        (one, next),
        (Command::Activation(_), Command::Activation(_))
            | (Command::Execution(_), Command::Execution(_))
            | (Command::Done(_), Command::Done(_))
    )
}

/// The line of some commands of one kind, without its end.
fn line_of(commands: &[Command], name: Option<&str>, minutes: Option<u16>, step: usize) -> String {
    let entries: Vec<u16> = commands.iter().filter_map(entry).collect();
    match commands[0] {
        Command::Plan {
            steps,
            stations,
            places,
        } => {
            let title = name.map_or(String::new(), |title| format!(" \"{title}\""));
            format!("plan{title} steps {steps} stations {stations} places {places}")
        }
        Command::Step { parent, work, out } => {
            let name = name.map_or(String::new(), |name| format!(" {name}"));
            let parent = match parent {
                0 => "-".to_string(),
                number => number.to_string(),
            };
            let minutes = minutes.map_or(String::new(), |minutes| format!(" minutes {minutes}"));
            format!("step {step}{name}: parent {parent} work {work} out {out}{minutes}")
        }
        Command::Activation(_) => list("activation", &entries),
        Command::Execution(_) => list("execution", &entries),
        Command::Done(_) => list("done", &entries),
        Command::Begin => "begin".to_string(),
        Command::Fetch => "fetch".to_string(),
        Command::Places(places) => format!("places {places}"),
        // A kind of command that is newer than the text has no line.
        _ => String::new(),
    }
}

fn list(word: &str, steps: &[u16]) -> String {
    let mut line = word.to_string();
    for step in steps {
        let _ = write!(line, " {step}");
    }
    line
}

/// The step of an entry of a list.
fn entry(command: &Command) -> Option<u16> {
    match *command {
        Command::Activation(step) | Command::Execution(step) | Command::Done(step) => Some(step),
        _ => None,
    }
}
