//! `cephlouk peak`: how many places a plan needs, and where.

use super::{Subcommand, DONE};
use crate::arguments::Arguments;
use crate::console::{Console, Stop};
use crate::explain::desk_refusal;
use crate::json::Object;
use crate::load::{load, Scope};
use crate::message::Message;
use cephlouk::desk_peak;

pub static PEAK: Subcommand = Subcommand {
    name: "peak",
    usage: "[FILE]",
    about: "how many places the activation order needs, and at which step",
    switches: &[],
    run: peak,
};

fn peak(console: &mut Console, arguments: &Arguments) -> Result<u8, Stop> {
    let loaded = load(arguments.file()?, Scope::Orders)?;
    let sheet = &loaded.day.sheet;
    let answer = desk_peak(&sheet.records(), &sheet.activation).map_err(|refusal| {
        let explained = desk_refusal(&loaded.day, refusal);
        Message {
            refused: Some(refusal.number()),
            help: explained.help,
            ..loaded.message(explained.what)
        }
    })?;
    let line = match console.is_json {
        true => Object::new()
            .number("peak", answer.peak)
            .number("by", answer.by)
            .end(),
        false => format!("{} at step {}", answer.peak, sheet.label(answer.by)),
    };
    console.line(&line)?;
    Ok(DONE)
}
