//! What may be typed between the lines of a day.

use super::day_lines::{read_other, read_steps};
use super::place::Fault;
use super::said::{Given, Question, Said};
use super::words::{Word, Words};
use crate::sheet::Sheet;

pub fn read_question(first: &Word, words: &mut Words, sheet: &Sheet) -> Result<Said, Fault> {
    let question = match &*first.text {
        "why" if words.peek().is_none() => Question::Why(Vec::new()),
        "why" => {
            let steps = read_steps("why", words, sheet)?;
            Question::Why(steps.into_iter().map(|(step, _)| step).collect())
        }
        "if" => Question::If(read_supposed(words, sheet)?),
        "standing" => Question::Standing,
        _ => Question::Help,
    };
    words.end(&first.text)?;
    Ok(Said::Ask(question, first.place.up_to(words.last())))
}

/// The commands behind 'if'.
fn read_supposed(words: &mut Words, sheet: &Sheet) -> Result<Vec<Given>, Fault> {
    let Some(first) = words.take() else {
        return Err(Fault::new(
            &words.here(),
            "'if' wants a line of a day next, found nothing",
        ));
    };
    let said = read_other(&first, words, sheet)?;
    let command = |one| match one {
        Said::Command(given) => Ok(given),
        _ => Err(Fault::new(
            &first.place,
            "'if' wants commands, and no order to be found",
        )),
    };
    said.into_iter().map(command).collect()
}
