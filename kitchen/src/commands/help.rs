//! `cephlouk help`: what there is to type.

use super::{Subcommand, COMMON, DONE, SUBCOMMANDS};
use crate::arguments::{too_many, wrong, Arguments, Switch};
use crate::console::{Console, Stop};
use crate::text::{quoted, LINES, QUESTIONS};

pub static HELP: Subcommand = Subcommand {
    name: "help",
    usage: "[SUBCOMMAND]",
    about: "this, or more about a subcommand",
    switches: &[],
    run: help,
};

const HEAD: &str = "\
cephlouk tells the cooks of a kitchen which step to start each time one ends, so
that the cold room never overfills and the day never sticks.

usage: cephlouk SUBCOMMAND [FILE] [OPTIONS]      - or no FILE is standard input
";

const TEXT: &str = "
The text of a plan, one thing a line; # starts a comment. Steps are numbered from
1. STEP is a number or a name: one word that does not begin with a digit. A parent
of - is the last step. With no execution line the activation order is used for
both. 'found' has an order found. While the day runs, 'places' says how many tray
places there are from then on. After the last step its trolley stands in the cold
room until 'fetch'. The lines:
";

const TYPED: &str = "
In 'run' these may be typed in between, and change nothing:
";

const STATUS: &str = "
Status: 0 done; 1 refused by the rules, or the plan is not finished; 2 wrong text or
usage; 3 reading or writing failed.
";

fn help(console: &mut Console, arguments: &Arguments) -> Result<u8, Stop> {
    match &arguments.words[..] {
        [] => all(console),
        [word] => {
            let name = word.to_string_lossy();
            match SUBCOMMANDS
                .iter()
                .find(|subcommand| subcommand.name == name)
            {
                Some(subcommand) => one(console, subcommand),
                None => Err(wrong(format!("there is no subcommand {}", quoted(&name))).into()),
            }
        }
        [_, more, ..] => Err(too_many(more).into()),
    }
}

/// All subcommands, and the lines of a text.
pub fn all(console: &mut Console) -> Result<u8, Stop> {
    console.line(HEAD)?;
    for subcommand in SUBCOMMANDS {
        let usage = format!("{} {}", subcommand.name, subcommand.usage);
        console.line(&format!("  {usage}\n      {}", subcommand.about))?;
    }
    switches(console, &COMMON)?;
    lines(console, TEXT, &LINES)?;
    lines(console, TYPED, &QUESTIONS)?;
    console.bytes(STATUS.as_bytes())?;
    Ok(DONE)
}

/// One subcommand.
pub fn one(console: &mut Console, subcommand: &Subcommand) -> Result<u8, Stop> {
    console.line(&format!(
        "usage: cephlouk {} {}",
        subcommand.name, subcommand.usage
    ))?;
    console.line(subcommand.about)?;
    switches(console, subcommand.switches)?;
    switches(console, &COMMON)?;
    Ok(DONE)
}

fn switches(console: &mut Console, switches: &[&Switch]) -> Result<(), Stop> {
    for switch in switches {
        let word = match switch.value {
            Some(value) => format!("{} {value}", switch.word),
            None => switch.word.to_string(),
        };
        console.line(&format!("  {word:<18} {}", switch.about))?;
    }
    Ok(())
}

fn lines(console: &mut Console, head: &str, lines: &[&str]) -> Result<(), Stop> {
    console.line(head)?;
    for line in lines {
        console.line(&format!("    {line}"))?;
    }
    Ok(())
}
