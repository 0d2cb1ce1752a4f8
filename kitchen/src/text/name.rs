//! Names of steps.

use super::place::{Fault, Place};
use super::visible::{is_hidden, quoted};

/// In place of the steps of an order: it is to be found.
pub const FOUND: &str = "found";
/// Ahead of a time.
pub const AT: &str = "at";

/// Whether a word can be the name of a step.
pub fn check_name(name: &str, place: &Place) -> Result<(), Fault> {
    let first = name.chars().next();
    let is_like_a_number =
        first.is_none_or(|letter| letter.is_ascii_digit() || "+-".contains(letter));
    let is_wrong = |letter: char| letter == ':' || letter == '"' || is_hidden(letter);
    if is_like_a_number || name.contains(is_wrong) || [FOUND, AT].contains(&name) {
        let what = format!("{} is no name", quoted(name));
        let help =
            "a name is one word; it does not begin with a digit, + or -, has no : or \" in it, \
            and is not 'found' or 'at'";
        return Err(Fault::new(place, what).helped(help));
    }
    Ok(())
}
