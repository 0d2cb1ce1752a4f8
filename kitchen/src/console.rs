//! Where a command's answers go: standard output, and messages to standard
//! error, or all of it as JSON.

use crate::message::{Message, Status};
use crate::paint::Paint;
use std::io::{self, BufWriter, ErrorKind, Stdout, Write};

/// Why a command ends early.
#[derive(Debug)]
pub enum Stop {
    /// What is wrong, still to be told.
    Message(Box<Message>),
    /// Whoever read the output has stopped.
    Unread,
}

impl From<Message> for Stop {
    fn from(message: Message) -> Stop {
        Stop::Message(Box::new(message))
    }
}

/// How standard output is known in messages.
const OUTPUT: &str = "standard output";

pub struct Console {
    pub is_json: bool,
    pub paint: Paint,
    output: BufWriter<Stdout>,
    errors_paint: Paint,
}

impl Console {
    pub fn new(is_json: bool) -> Console {
        Console {
            is_json,
            paint: Paint::on(&io::stdout()),
            output: BufWriter::new(io::stdout()),
            errors_paint: Paint::on(&io::stderr()),
        }
    }

    /// A line of the answer.
    pub fn line(&mut self, line: &str) -> Result<(), Stop> {
        self.bytes(line.as_bytes())?;
        self.bytes(b"\n")
    }

    pub fn bytes(&mut self, bytes: &[u8]) -> Result<(), Stop> {
        self.output.write_all(bytes).map_err(unwritten)
    }

    /// All that was answered is out.
    pub fn flush(&mut self) -> Result<(), Stop> {
        self.output.flush().map_err(unwritten)
    }

    /// Tells what is wrong, behind all that was answered.
    pub fn tell(&mut self, message: &Message) -> Result<(), Stop> {
        if self.is_json {
            return self.line(&message.json());
        }
        let flushed = self.flush();
        // Where nobody takes messages, there is nobody to tell.
        let _ = io::stderr().write_all(message.text(self.errors_paint).as_bytes());
        flushed
    }
}

fn unwritten(error: io::Error) -> Stop {
    match error.kind() {
        ErrorKind::BrokenPipe => Stop::Unread,
        _ => failed(OUTPUT, &error).into(),
    }
}

/// Reading or writing failed.
pub fn failed(file: &str, error: &io::Error) -> Message {
    let what = match error.kind() {
        ErrorKind::NotFound => "there is no such file".to_string(),
        ErrorKind::IsADirectory => "it is a directory, and no file".to_string(),
        ErrorKind::PermissionDenied => "it may not be opened".to_string(),
        ErrorKind::StorageFull => "the disk is full".to_string(),
        _ => error.to_string(),
    };
    Message::new(Status::Failed, what).about(file)
}
