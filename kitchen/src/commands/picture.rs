//! `cephlouk picture`: a day drawn.

use super::simulate::undrawn;
use super::{Subcommand, DONE, OUTPUT};
use crate::arguments::{wrong, Arguments, Switch};
use crate::console::{Console, Stop};
use crate::json::Object;
use crate::load::{load, Scope};
use crate::output::write_to;
use crate::picture::{draw, page, terminal, Timeline};
use std::env;
use std::ffi::OsStr;
use std::io::{stdout, IsTerminal};
use std::path::Path;

pub static PICTURE: Subcommand = Subcommand {
    name: "picture",
    usage: "[FILE] [-o x.svg|x.html] [--terminal]",
    about: "the day of a text drawn: its reports, or the day that its minutes give",
    switches: &[&OUTPUT, &TERMINAL],
    run: picture,
};

static TERMINAL: Switch = Switch {
    word: "--terminal",
    value: None,
    about: "draws it in letters",
};

/// How a picture is drawn.
enum Form {
    Svg,
    Page,
    Letters,
}

fn picture(console: &mut Console, arguments: &Arguments) -> Result<u8, Stop> {
    let output = arguments.value(&OUTPUT);
    let form = form_of(output, arguments.has(&TERMINAL))?;
    let loaded = load(arguments.file()?, Scope::Day)?;
    let timeline = Timeline::of(loaded.day.clone()).map_err(|why| undrawn(&loaded, why))?;
    let text = match form {
        Form::Svg => draw(&timeline).svg,
        Form::Page => page(&timeline),
        Form::Letters => terminal(&timeline, columns(), console.paint),
    };
    let text = match console.is_json && output.is_none() {
        true => Object::new().text("picture", &text).end() + "\n",
        false => text,
    };
    write_to(console, output, text.as_bytes())?;
    Ok(DONE)
}

/// By the end of the file's name; with no file letters go to a terminal.
fn form_of(output: Option<&OsStr>, is_terminal: bool) -> Result<Form, Stop> {
    let ending = output.and_then(|path| Path::new(path).extension());
    match (is_terminal, output, ending.and_then(OsStr::to_str)) {
        (true, _, _) => Ok(Form::Letters),
        (_, None, _) if stdout().is_terminal() => Ok(Form::Letters),
        (_, None, _) | (_, Some(_), Some("svg")) => Ok(Form::Svg),
        (_, Some(_), Some("html" | "htm")) => Ok(Form::Page),
        (_, Some(path), _) if path == crate::input::STANDARD => Ok(Form::Svg),
        (_, Some(path), _) => {
            let what = format!("'{}' is neither .svg nor .html", path.to_string_lossy());
            Err(wrong(what).into())
        }
    }
}

/// The columns of the terminal, where it says so.
fn columns() -> Option<usize> {
    env::var("COLUMNS").ok()?.parse().ok()
}
