//! The day printer's lines, each with its line feed.

use crate::answer::Answer;
use crate::plan::Plan;
use std::io::{self, Write};

/// The line of an accepted BEGIN, asked of the plan right after it.
pub fn begin(to: &mut impl Write, plan: &Plan, answer: &Answer, starts: &[u16]) -> io::Result<()> {
    write!(to, "begin peak={} by={}", answer.peak, answer.peak_task)?;
    standing(to, plan, &starts[..answer.starts])
}

/// The line of an accepted DONE for a task, asked of the plan right after it.
pub fn done(
    to: &mut impl Write,
    plan: &Plan,
    task: u16,
    answer: &Answer,
    starts: &[u16],
) -> io::Result<()> {
    write!(to, "done {task} offers={}", answer.offers)?;
    standing(to, plan, &starts[..answer.starts])
}

/// The line of an accepted FETCH, asked of the plan right after it.
pub fn fetch(to: &mut impl Write, plan: &Plan) -> io::Result<()> {
    writeln!(to, "fetch booked={}", plan.booked())
}

/// The line of an accepted 08, asked of the plan right after it, when the new
/// bound is in force.
pub fn places(to: &mut impl Write, plan: &Plan, answer: &Answer, starts: &[u16]) -> io::Result<()> {
    write!(to, "places M={}", plan.memory_bound)?;
    standing(to, plan, &starts[..answer.starts])
}

/// The line of a refusal: its number, and the command's byte offset.
pub fn refused(to: &mut impl Write, answer: &Answer, offset: u64) -> io::Result<()> {
    writeln!(to, "refused {} at {offset}", answer.number)
}

/// What begin, done and places lines share: B, trays in use, fullness of B in
/// M, and the started tasks or `-`.
fn standing(to: &mut impl Write, plan: &Plan, starts: &[u16]) -> io::Result<()> {
    let (booked, used, full) = (plan.booked(), plan.in_use(), plan.fullness());
    write!(to, " booked={booked} used={used} full={full} start")?;
    if starts.is_empty() {
        write!(to, " -")?;
    }
    for task in starts {
        write!(to, " {task}")?;
    }
    writeln!(to)
}
