//! Colours, where somebody looks at a terminal.

use std::env;
use std::io::IsTerminal;

/// Whether to paint.
#[derive(Clone, Copy, Debug)]
pub struct Paint {
    is_on: bool,
}

const BOLD: &str = "\x1b[1m";
const RED: &str = "\x1b[1;31m";
const GREEN: &str = "\x1b[32m";
const PLAIN: &str = "\x1b[0m";

impl Paint {
    pub const OFF: Paint = Paint { is_on: false };

    /// On a terminal, unless NO_COLOR is set or the terminal is a dumb one.
    pub fn on(stream: &impl IsTerminal) -> Paint {
        let is_unwanted = env::var_os("NO_COLOR").is_some_and(|value| !value.is_empty());
        let is_dumb = env::var_os("TERM").is_none_or(|value| value == "dumb");
        Paint {
            is_on: stream.is_terminal() && !is_unwanted && !is_dumb,
        }
    }

    pub fn wrong(self, text: &str) -> String {
        self.painted(RED, text)
    }

    pub fn help(self, text: &str) -> String {
        self.painted(GREEN, text)
    }

    pub fn strong(self, text: &str) -> String {
        self.painted(BOLD, text)
    }

    /// Letters on one of a terminal's 256 colours.
    pub fn filled(self, colour: u8, text: &str) -> String {
        self.painted(&format!("\x1b[97;48;5;{colour}m"), text)
    }

    fn painted(self, colour: &str, text: &str) -> String {
        if self.is_on {
            format!("{colour}{text}{PLAIN}")
        } else {
            text.to_string()
        }
    }
}
