//! The day printer.

use crate::command::{decode, Command};
use crate::feed::Feed;
use crate::plan::Plan;
use crate::refusal::Refusal;
use crate::text;
use std::io::{Read, Result, Write};

/// Reads commands and prints one line per accepted BEGIN, DONE, FETCH or 08.
/// Stops after the line of a refusal, or without a line where the input ends
/// between commands. A line is out before more input is waited for.
pub fn print(input: impl Read, mut output: impl Write) -> Result<()> {
    let mut feed = Feed::new(input);
    let mut plan = Plan::new();
    let mut starts = [0; Plan::STARTS];
    loop {
        let answer = plan.command(feed.bytes(), feed.place(), &mut starts);
        if answer.number == Refusal::Cut.number() {
            // A cut command changes nothing: ask again when more has come.
            output.flush()?;
            if feed.refill()? {
                continue;
            }
            if feed.is_used_up() {
                return Ok(());
            }
        }
        if answer.number != 0 {
            text::refused(&mut output, &answer, feed.offset())?;
            return output.flush();
        }
        match decode(feed.bytes(), feed.place()) {
            Ok((Command::Begin, _)) => text::begin(&mut output, &plan, &answer, &starts)?,
            Ok((Command::Done(task), _)) => {
                text::done(&mut output, &plan, task, &answer, &starts)?;
            }
            Ok((Command::Fetch, _)) => text::fetch(&mut output, &plan)?,
            Ok((Command::Places(_), _)) => text::places(&mut output, &plan, &answer, &starts)?,
            _ => {}
        }
        feed.advance(answer.used);
    }
}
