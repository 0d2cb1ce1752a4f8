//! Texts and streams as they are read.

use crate::console::{failed, Stop};
use crate::message::{Message, Status};
use crate::text::visible;
use std::ffi::{OsStr, OsString};
use std::fs::File;
use std::io::{self, BufRead, BufReader, IsTerminal, Read};

/// Standard input as an argument.
pub const STANDARD: &str = "-";

/// A longer line is no line of a plan text.
const LONGEST_LINE: u64 = 1 << 20;
/// A longer stream of commands is read by no command that takes it whole.
const LONGEST_STREAM: u64 = 1 << 28;

/// An input that is open.
pub struct Input {
    /// Its name in messages.
    pub shown: String,
    /// Its path, unless it is standard input.
    pub path: Option<OsString>,
    reader: BufReader<Box<dyn Read>>,
    lines: usize,
}

impl Input {
    pub fn open(name: &OsStr) -> Result<Input, Stop> {
        if name == STANDARD {
            return Ok(Input {
                shown: "standard input".to_string(),
                path: None,
                reader: BufReader::new(Box::new(io::stdin())),
                lines: 0,
            });
        }
        let shown = visible(&name.to_string_lossy());
        let file = File::open(name).map_err(|error| failed(&shown, &error))?;
        Ok(Input {
            shown,
            path: Some(name.to_os_string()),
            reader: BufReader::new(Box::new(file)),
            lines: 0,
        })
    }

    /// Whether somebody types it.
    pub fn is_typed(&self) -> bool {
        self.path.is_none() && io::stdin().is_terminal()
    }

    /// Whether a line was read already that was not asked for yet.
    pub fn has_line(&self) -> bool {
        self.reader.buffer().contains(&b'\n')
    }

    /// The next line, waited for. Letters in another encoding do no harm in
    /// comments.
    pub fn line(&mut self) -> Result<Option<String>, Stop> {
        let mut line = Vec::new();
        self.reader
            .by_ref()
            .take(LONGEST_LINE)
            .read_until(b'\n', &mut line)
            .map_err(|error| failed(&self.shown, &error))?;
        self.lines += 1;
        if line.len() as u64 == LONGEST_LINE && !line.ends_with(b"\n") {
            let what = format!("line {} does not end", self.lines);
            return Err(Message::new(Status::Wrong, what).about(&self.shown).into());
        }
        let is_there = !line.is_empty();
        Ok(is_there.then(|| String::from_utf8_lossy(&line).into_owned()))
    }

    /// All bytes that are left.
    pub fn bytes(mut self) -> Result<Vec<u8>, Stop> {
        let mut bytes = Vec::new();
        self.reader
            .by_ref()
            .take(LONGEST_STREAM + 1)
            .read_to_end(&mut bytes)
            .map_err(|error| failed(&self.shown, &error))?;
        if bytes.len() as u64 > LONGEST_STREAM {
            let what = format!("it is longer than {LONGEST_STREAM} bytes");
            return Err(Message::new(Status::Wrong, what).about(&self.shown).into());
        }
        Ok(bytes)
    }
}
