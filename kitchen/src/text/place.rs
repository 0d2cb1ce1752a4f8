//! Places in a text, and what is wrong at them.

use std::ops::Range;
use std::rc::Rc;

/// A stretch of a line of a text.
#[derive(Clone, Debug, PartialEq, Eq)]
pub struct Place {
    /// The number of the line, counted from 1.
    pub line: usize,
    /// All of the line.
    pub text: Rc<str>,
    /// The bytes of the line that are meant.
    pub range: Range<usize>,
}

impl Place {
    /// The column of the first character that is meant, counted from 1.
    pub fn column(&self) -> usize {
        self.text[..self.range.start].chars().count() + 1
    }

    /// The words that are meant.
    pub fn said(&self) -> &str {
        &self.text[self.range.clone()]
    }

    /// The place of what nobody typed.
    pub fn nowhere() -> Place {
        Place {
            line: 0,
            text: "".into(),
            range: 0..0,
        }
    }

    /// From the start of this one to the end of another on the same line.
    pub fn up_to(&self, last: &Place) -> Place {
        Place {
            range: self.range.start..last.range.end,
            ..self.clone()
        }
    }
}

/// What is wrong with a text, where, and what helps.
#[derive(Clone, Debug, PartialEq, Eq)]
pub struct Fault {
    pub place: Place,
    pub what: String,
    pub help: Option<String>,
}

impl Fault {
    pub fn new(place: &Place, what: impl Into<String>) -> Fault {
        Fault {
            place: place.clone(),
            what: what.into(),
            help: None,
        }
    }

    pub fn helped(self, help: impl Into<String>) -> Fault {
        Fault {
            help: Some(help.into()),
            ..self
        }
    }
}
