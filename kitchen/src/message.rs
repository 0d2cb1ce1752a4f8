//! What is told of a fault, a refusal or a failure: where, what, and what helps.

use crate::json::Object;
use crate::paint::Paint;
use crate::text::{visible, Fault, Place};
use std::fmt::Write;

/// The status of a program that did not do what it was asked.
#[derive(Clone, Copy, Debug, PartialEq, Eq, PartialOrd, Ord)]
#[repr(u8)]
pub enum Status {
    /// The rules refuse it, or the plan is not finished.
    Refused = 1,
    /// Wrong text or usage.
    Wrong = 2,
    /// Reading or writing failed.
    Failed = 3,
}

/// How much of a long line is shown ahead of what is meant, and behind it.
const AHEAD: usize = 40;
const BEHIND: usize = 60;

#[derive(Clone, Debug)]
pub struct Message {
    pub status: Status,
    /// The input or output that it is about, as people know it.
    pub file: Option<String>,
    pub place: Option<Place>,
    /// The number of a refusal.
    pub refused: Option<u8>,
    pub what: String,
    pub help: Option<String>,
}

impl Message {
    pub fn new(status: Status, what: impl Into<String>) -> Message {
        Message {
            status,
            file: None,
            place: None,
            refused: None,
            what: what.into(),
            help: None,
        }
    }

    /// A fault in a text.
    pub fn of_fault(file: &str, fault: Fault) -> Message {
        Message {
            place: Some(fault.place),
            help: fault.help,
            ..Message::new(Status::Wrong, fault.what).about(file)
        }
    }

    pub fn about(self, file: &str) -> Message {
        Message {
            file: Some(file.to_string()),
            ..self
        }
    }

    pub fn helped(self, help: impl Into<String>) -> Message {
        Message {
            help: Some(help.into()),
            ..self
        }
    }

    /// As people read it, some lines with their ends.
    pub fn text(&self, paint: Paint) -> String {
        let mut text = String::new();
        let mut head = self.file.clone().unwrap_or("cephlouk".to_string());
        if let Some(place) = &self.place {
            let _ = write!(head, ":{}:{}", place.line, place.column());
        }
        let what = paint.wrong(&visible(&self.what));
        let _ = writeln!(text, "{}: {what}", visible(&head));
        if let Some(place) = &self.place {
            text += &excerpt(place, paint);
        }
        if let Some(help) = &self.help {
            let _ = writeln!(text, "{} {}", paint.help("help:"), visible(help));
        }
        text
    }

    /// As programs read it.
    pub fn json(&self) -> String {
        let mut object = Object::new().maybe_text("file", self.file.as_deref());
        if let Some(place) = &self.place {
            object = object
                .number("line", place.line as u64)
                .number("column", place.column() as u64);
        }
        if let Some(number) = self.refused {
            object = object.number("refused", number);
        }
        object
            .number("status", self.status as u8)
            .text("message", &self.what)
            .maybe_text("help", self.help.as_deref())
            .end()
    }
}

/// The line that is meant, with what is meant marked below.
fn excerpt(place: &Place, paint: Paint) -> String {
    let number = place.line.to_string();
    let (start, end) = (place.range.start, place.range.end);
    let ahead = last_letters(&place.text[..start], AHEAD);
    let said = first_letters(&place.text[start..end], BEHIND);
    let behind = first_letters(&place.text[end..], BEHIND);
    let marks = "^".repeat(said.chars().count().max(1));
    format!(
        "{number} | {ahead}{said}{behind}\n{:>width$} | {:indent$}{}\n",
        "",
        "",
        paint.wrong(&marks),
        width = number.len(),
        indent = ahead.chars().count(),
    )
}

fn last_letters(text: &str, most: usize) -> String {
    let letters: Vec<char> = text.chars().collect();
    match letters.len().checked_sub(most) {
        Some(left_out @ 1..) => format!("...{}", shown(&letters[left_out..])),
        _ => shown(&letters),
    }
}

fn first_letters(text: &str, most: usize) -> String {
    let letters: Vec<char> = text.chars().take(most + 1).collect();
    match letters.get(..most) {
        Some(first) if letters.len() > most => format!("{}...", shown(first)),
        _ => shown(&letters),
    }
}

/// Letters as a terminal shows them, a tab as one space.
fn shown(letters: &[char]) -> String {
    let spaced: String = letters
        .iter()
        .map(|&letter| if letter == '\t' { ' ' } else { letter })
        .collect();
    visible(&spaced)
}
