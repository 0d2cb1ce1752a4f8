//! The lines that open a plan and give its steps.

use super::draft::{Draft, MOST_STEPS};
use super::name::check_name;
use super::place::Fault;
use super::said::Given;
use super::visible::{is_hidden, quoted};
use super::words::{Word, Words};
use crate::sheet::Sheet;
use cephlouk::{Command, Plan};
use std::ops::RangeInclusive;
use std::rc::Rc;

const STATIONS: RangeInclusive<u32> = 1..=Plan::MAX_PROCESSORS as u32;
const TRAYS: RangeInclusive<u32> = 0..=u16::MAX as u32;
const MINUTES: RangeInclusive<u32> = 0..=u16::MAX as u32;
pub const PLACES: RangeInclusive<u32> = 0..=u32::MAX;

/// The parent of the last step.
const NO_PARENT: &str = "-";

/// A plan; where it does not say how many steps it has, it is one of 0.
pub fn read_plan(first: &Word, words: &mut Words) -> Result<Given, Fault> {
    let title = match words
        .peek()
        .filter(|word| word.text.starts_with('"'))
        .cloned()
    {
        Some(word) => {
            words.take();
            Some(read_title(&word)?)
        }
        None => None,
    };
    let steps = match words.skip_word("steps") {
        true => words.number("steps", 1..=MOST_STEPS.into())? as u16,
        false => 0,
    };
    words.expect("plan", "stations")?;
    let stations = words.number("stations", STATIONS)? as u8;
    words.expect("plan", "places")?;
    let places = words.number("places", PLACES)?;
    words.end("plan")?;
    let command = Command::Plan {
        steps,
        stations,
        places,
    };
    Ok(Given {
        name: title,
        ..Given::plain(command, first.place.up_to(words.last()))
    })
}

fn read_title(word: &Word) -> Result<Rc<str>, Fault> {
    let title = word.text.trim_matches('"').trim();
    match title.chars().find(|&letter| is_hidden(letter)) {
        None => Ok(title.into()),
        Some(letter) => {
            let what = format!("a title has no {}", letter.escape_unicode());
            Err(Fault::new(&word.place, what))
        }
    }
}

/// A step behind what is held back, and its parent where it is named and not known
/// yet.
pub fn read_step(
    draft: &Draft,
    first: &Word,
    words: &mut Words,
    sheet: &Sheet,
) -> Result<(Given, Option<Word>), Fault> {
    let number = draft.next_step(sheet);
    if draft.is_uncounted() && number > MOST_STEPS.into() {
        let what = format!("a plan has at most {MOST_STEPS} steps");
        return Err(Fault::new(&first.place, what));
    }
    let name = read_head(draft, number, words, sheet)?;
    words.expect("step", "parent")?;
    let (parent, unknown) = read_parent(draft, name.as_deref(), number, words, sheet)?;
    words.expect("step", "work")?;
    let work = words.number("work", TRAYS)? as u16;
    words.expect("step", "out")?;
    let out = words.number("out", TRAYS)? as u16;
    let minutes = match words.skip_word("minutes") {
        true => Some(words.number("minutes", MINUTES)? as u16),
        false => None,
    };
    words.end("step")?;
    let command = Command::Step { parent, work, out };
    let given = Given {
        name,
        minutes,
        ..Given::plain(command, first.place.up_to(words.last()))
    };
    Ok((given, unknown))
}

/// A step may say its number, a name or both, with a colon behind.
fn read_head(
    draft: &Draft,
    number: usize,
    words: &mut Words,
    sheet: &Sheet,
) -> Result<Option<Rc<str>>, Fault> {
    let Some(first) = words.peek().filter(|word| &*word.text != "parent").cloned() else {
        return Ok(None);
    };
    let said = first.text.trim_end_matches(':');
    if said.is_empty() || said.starts_with(|letter: char| letter.is_ascii_digit()) {
        if said.parse() != Ok(number) {
            let what = format!("this is step {number}, found {}", quoted(&first.text));
            return Err(Fault::new(&first.place, what));
        }
        words.take();
        if first.text.ends_with(':') {
            return Ok(None);
        }
    }
    let named = words.peek().cloned();
    let Some(name) = named.as_ref().and_then(|word| word.text.strip_suffix(':')) else {
        let what = format!(
            "'step' wants a name with ':' or 'parent' next, found {}",
            words.found()
        );
        let help = format!("'step {number}: parent ...' or 'step {number} NAME: parent ...'");
        return Err(Fault::new(&words.here(), what).helped(help));
    };
    words.take();
    check_name(name, words.last())?;
    if let Some(step) = draft.named(name, sheet) {
        let what = format!("step {step} has the name {} already", quoted(name));
        return Err(Fault::new(words.last(), what));
    }
    Ok(Some(name.into()))
}

/// The parent of a step: its number, or its name where it comes later.
fn read_parent(
    draft: &Draft,
    own: Option<&str>,
    number: usize,
    words: &mut Words,
    sheet: &Sheet,
) -> Result<(u16, Option<Word>), Fault> {
    let most = draft.count(sheet);
    let (found, place) = (words.found(), words.here());
    let wanted = || {
        let what =
            format!("'parent' wants a step: a number from 0 to {most} or a name, found {found}");
        Fault::new(&place, what)
    };
    let word = words.take().ok_or_else(wanted)?;
    if &*word.text == NO_PARENT {
        return Ok((0, None));
    }
    if let Ok(parent) = word.text.parse::<u32>() {
        let parent = u16::try_from(parent).ok().filter(|&parent| parent <= most);
        return Ok((parent.ok_or_else(wanted)?, None));
    }
    check_name(&word.text, &word.place).map_err(|_| wanted())?;
    if own == Some(&*word.text) {
        return Ok((number as u16, None));
    }
    Ok(match draft.named(&word.text, sheet) {
        Some(parent) => (parent, None),
        None => (0, Some(word)),
    })
}
