//! Where a day stands, and why steps are not starting, in words for cooks.

use crate::day::Day;
use cephlouk::{Phase, Reason, Refusal};

/// Why a step is not starting, in words.
pub fn reason(day: &Day, step: u16, reason: Reason) -> String {
    let sheet = &day.sheet;
    let why = match reason {
        Reason::Ended => "has ended".to_string(),
        Reason::Running => "is running".to_string(),
        Reason::NotBooked { first, lack } => format!(
            "not booked; {} is next and lacks {}",
            sheet.label(first),
            places(lack.into())
        ),
        Reason::Unfed(child) => format!("booked; waits for {}", sheet.label(child)),
        Reason::NoProcessor => format!("booked; {} taken", stations(sheet.stations)),
        other => format!("{other:?}"),
    };
    format!("{}: {why}", sheet.label(step))
}

/// Why a step is not starting, or why that cannot be told.
pub fn why(day: &Day, step: u16) -> String {
    match day.plan.why(step) {
        Ok(told) => reason(day, step, told),
        Err(Refusal::OutOfTurn) => {
            format!("{}: {}", day.sheet.label(step), phase(day))
        }
        Err(other) => format!("{step}: {other}"),
    }
}

/// Which steps run.
pub fn running(day: &Day) -> String {
    let running = steps_that(day, |told| told == Reason::Running);
    format!("running: {}", day.sheet.labels(&running))
}

/// The steps that have not started, while the day runs.
pub fn unstarted(day: &Day) -> Vec<u16> {
    steps_that(day, |told| !matches!(told, Reason::Ended | Reason::Running))
}

/// The steps of which the library tells such a reason.
fn steps_that(day: &Day, is_such: fn(Reason) -> bool) -> Vec<u16> {
    let is_told = |&step: &u16| day.plan.why(step).is_ok_and(is_such);
    day.sheet.numbers().filter(is_told).collect()
}

/// Where a plan stands, in words.
pub fn phase(day: &Day) -> String {
    let sheet = &day.sheet;
    match day.plan.phase() {
        Phase::Empty => "there is no plan yet".to_string(),
        Phase::Steps => format!("{} of {} steps are given", sheet.steps.len(), sheet.count),
        Phase::Orders => "the day has not begun".to_string(),
        Phase::Running => {
            let standing = day.plan.standing();
            format!("{} of {} steps have ended", standing.finished, sheet.count)
        }
        Phase::Ready => "the last step has ended, and its trolley stands until 'fetch'".to_string(),
        Phase::Over => "the day is over".to_string(),
        _ => "the plan is in a phase that this program does not know".to_string(),
    }
}

/// So many places.
pub fn places(count: u64) -> String {
    counted(count, "place", "places")
}

pub fn trays(count: u64) -> String {
    counted(count, "tray", "trays")
}

fn stations(count: u8) -> String {
    match count {
        1 => "the station is".to_string(),
        count => format!("all {count} stations are"),
    }
}

pub fn counted(count: u64, one: &str, many: &str) -> String {
    let word = if count == 1 { one } else { many };
    format!("{count} {word}")
}
