//! `cephlouk read`: the bytes of commands to a plan text.

use super::{Subcommand, DONE};
use crate::arguments::Arguments;
use crate::console::{Console, Stop};
use crate::input::Input;
use crate::json::Object;
use crate::message::{Message, Status};
use crate::sheet::Sheet;
use crate::text::{commands, tidy};

pub static READ: Subcommand = Subcommand {
    name: "read",
    usage: "[FILE]",
    about: "the bytes of commands to a plan text",
    switches: &[],
    run: read,
};

fn read(console: &mut Console, arguments: &Arguments) -> Result<u8, Stop> {
    let input = Input::open(arguments.file()?)?;
    let shown = input.shown.clone();
    let (commands, broken) = commands(&input.bytes()?);
    let text = tidy(&commands, &Sheet::default());
    match console.is_json {
        true => console.line(&Object::new().text("plan", &text).end())?,
        false => console.bytes(text.as_bytes())?,
    }
    match broken {
        None => Ok(DONE),
        Some(broken) => {
            let what = format!("byte {}: {}", broken.byte, broken.what);
            Err(Message::new(Status::Wrong, what).about(&shown).into())
        }
    }
}
