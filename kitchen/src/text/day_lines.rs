//! The lines of orders and of the day.

use super::clock::Clock;
use super::draft::Draft;
use super::name::{check_name, AT, FOUND};
use super::place::{Fault, Place};
use super::plan_lines::PLACES;
use super::reader::no_command;
use super::said::{Given, Order, Said};
use super::words::{Word, Words};
use crate::sheet::Sheet;
use cephlouk::Command;

/// A line of an order or of the day.
pub fn read_other(first: &Word, words: &mut Words, sheet: &Sheet) -> Result<Vec<Said>, Fault> {
    let line = match &*first.text {
        "activation" => read_order(first, Order::Activation, words, sheet)?,
        "execution" => read_order(first, Order::Execution, words, sheet)?,
        "done" => {
            let steps = read_steps("done", words, sheet)?;
            let commands = steps
                .into_iter()
                .map(|(step, place)| (Command::Done(step), place));
            at(commands.collect(), words, sheet)?
        }
        "begin" => at(vec![(Command::Begin, first.place.clone())], words, sheet)?,
        "fetch" => at(vec![(Command::Fetch, first.place.clone())], words, sheet)?,
        "places" => {
            let places = Command::Places(words.number("places", PLACES)?);
            at(
                vec![(places, first.place.up_to(words.last()))],
                words,
                sheet,
            )?
        }
        _ => return Err(no_command(first)),
    };
    words.end(&first.text)?;
    Ok(line)
}

fn read_order(
    first: &Word,
    order: Order,
    words: &mut Words,
    sheet: &Sheet,
) -> Result<Vec<Said>, Fault> {
    if words.skip_word(FOUND) {
        return Ok(vec![Said::Find(order, first.place.up_to(words.last()))]);
    }
    let steps = read_steps(order.word(), words, sheet)?;
    let entry = |(step, place)| Said::Command(Given::plain(order.entry(step), place));
    Ok(steps.into_iter().map(entry).collect())
}

/// Steps, one or more, up to the end of the line or a time.
pub fn read_steps(of: &str, words: &mut Words, sheet: &Sheet) -> Result<Vec<(u16, Place)>, Fault> {
    let mut steps = vec![read_one(of, words, sheet)?];
    while words.peek().is_some() && !words.is_next(AT) {
        steps.push(read_one(of, words, sheet)?);
    }
    Ok(steps)
}

/// A step: its number or its name.
fn read_one(of: &str, words: &mut Words, sheet: &Sheet) -> Result<(u16, Place), Fault> {
    let most = sheet.count;
    let (found, place) = (words.found(), words.here());
    let wanted = || {
        let what =
            format!("'{of}' wants a step: a number from 1 to {most} or a name, found {found}");
        Fault::new(&place, what)
    };
    let word = words.take().ok_or_else(wanted)?;
    if let Some(step) = sheet.named(&word.text) {
        return Ok((step, word.place));
    }
    if check_name(&word.text, &word.place).is_ok() && sheet.names().next().is_some() {
        return Err(Draft::default().unknown(&word, sheet));
    }
    let number = word.text.parse().ok();
    let step = number.filter(|step| (1..=most).contains(step));
    step.map(|step| (step, word.place)).ok_or_else(wanted)
}

/// Commands of one line, with the time where it ends with one.
fn at(
    commands: Vec<(Command, Place)>,
    words: &mut Words,
    sheet: &Sheet,
) -> Result<Vec<Said>, Fault> {
    let time = match words.skip_word(AT) {
        true => Some(read_time(words, sheet)?),
        false => None,
    };
    let with_time = |(command, place)| {
        Said::Command(Given {
            at: time,
            ..Given::plain(command, place)
        })
    };
    Ok(commands.into_iter().map(with_time).collect())
}

fn read_time(words: &mut Words, sheet: &Sheet) -> Result<Clock, Fault> {
    let (found, place) = (words.found(), words.here());
    let time: Option<Clock> = words.take().and_then(|word| word.text.parse().ok());
    let time = time.ok_or_else(|| {
        Fault::new(
            &place,
            format!("'at' wants a time like 09:42, found {found}"),
        )
    })?;
    match sheet.at.filter(|&last| last > time) {
        None => Ok(time),
        Some(last) => Err(Fault::new(
            &place,
            format!("{time} is before {last}, the last time told"),
        )),
    }
}
