//! The bytes of a text, for whoever sends them on.

use super::place::Fault;
use super::reader::{Heard, Reader};
use super::said::Said;
use crate::sheet::Sheet;

/// The bytes of all commands that a text says, whatever the rules make of them,
/// up to its first fault. Orders that are to be found have no bytes of their own.
pub fn stream(text: &str) -> (Vec<u8>, Option<Fault>) {
    let (mut reader, mut sheet) = (Reader::default(), Sheet::default());
    let mut bytes = Vec::new();
    for line in text.lines() {
        let heard = reader.line(line, &sheet);
        if let Some(fault) = take(heard, &mut sheet, &mut bytes) {
            return (bytes, Some(fault));
        }
    }
    let heard = reader.end(&sheet);
    let fault = take(heard, &mut sheet, &mut bytes);
    (bytes, fault)
}

fn take(heard: Heard, sheet: &mut Sheet, bytes: &mut Vec<u8>) -> Option<Fault> {
    for said in heard.said {
        if let Said::Command(given) = said {
            sheet.take(&given);
            bytes.extend_from_slice(&given.command.encode());
        }
    }
    heard.fault
}
