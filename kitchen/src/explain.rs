//! What a refusal means, in words for cooks and planners, from what the library
//! answers when it is asked on.

use crate::day::Day;
use crate::tell::{phase, places, reason, running, trays};
use crate::text::{order_lines, Order};
use cephlouk::{desk_peak, Command, DeskPeak, Phase, Refusal};

/// What is wrong, and what helps.
#[derive(Debug, PartialEq, Eq)]
pub struct Explained {
    pub what: String,
    pub help: Option<String>,
}

/// Above so many steps an order is not told in a line.
const SHORT_ORDER: usize = 24;

/// Why a command was refused; the file is the one that the plan stands in.
pub fn refusal(day: &Day, command: Command, refusal: Refusal, file: Option<&str>) -> Explained {
    let (why, help) = match (refusal, command) {
        (Refusal::OutOfTurn, _) => (in_turn(day, command), None),
        (Refusal::Repeated, Command::Activation(step)) => {
            (repeated(day, step, &day.sheet.activation), None)
        }
        (Refusal::Repeated, Command::Execution(step)) => {
            (repeated(day, step, &day.sheet.execution), None)
        }
        (Refusal::NotRunning, Command::Done(step)) => (not_running(day, step), Some(running(day))),
        (Refusal::NotOneRoot, _) => (roots(day), None),
        (Refusal::ParentFirst, _) => (parent_first(day), order_that_fits(day, file)),
        (Refusal::PeakAboveBound, Command::Places(places)) => (peak(day, places.into()), None),
        (Refusal::PeakAboveBound, _) => (
            peak(day, day.sheet.places.into()),
            order_that_fits(day, file),
        ),
        (Refusal::BoundBelowBooked, _) => (
            format!("{} are booked", trays(day.plan.booked().into())),
            Some("as reports come in, fewer are".to_string()),
        ),
        (other, _) => (other.to_string(), None),
    };
    let number = refusal.number();
    Explained {
        what: format!("{} refused ({number}): {why}", said(day, command)),
        help,
    }
}

/// Why the desk does not tell the peak of what was given.
pub fn desk_refusal(day: &Day, refusal: Refusal) -> Explained {
    let (sheet, number) = (&day.sheet, refusal.number());
    let (why, help) = match refusal {
        Refusal::OutsideLimits if sheet.steps.len() < sheet.count.into() => (phase(day), None),
        Refusal::OutsideLimits => (
            format!(
                "the activation order has {} of {} steps",
                sheet.activation.len(),
                sheet.count
            ),
            Some("'activation found' has one found".to_string()),
        ),
        Refusal::NotOneRoot => (roots(day), None),
        Refusal::ParentFirst => (parent_first(day), None),
        other => (other.to_string(), None),
    };
    Explained {
        what: format!("the peak is refused ({number}): {why}"),
        help,
    }
}

/// Why no order can be found.
pub fn no_order(day: &Day, refusal: Refusal) -> Explained {
    let why = match refusal {
        Refusal::OutOfTurn => phase(day),
        Refusal::NotOneRoot => roots(day),
        Refusal::RootUnreached => unreached(day),
        other => other.to_string(),
    };
    Explained {
        what: format!("an order is refused ({}): {why}", refusal.number()),
        help: None,
    }
}

/// A command in words.
pub fn said(day: &Day, command: Command) -> String {
    let label = |step| day.sheet.label(step);
    match command {
        Command::Plan { .. } => "plan".to_string(),
        Command::Step { .. } => "step".to_string(),
        Command::Activation(step) => format!("activation {}", label(step)),
        Command::Execution(step) => format!("execution {}", label(step)),
        Command::Begin => "begin".to_string(),
        Command::Done(step) => format!("done {}", label(step)),
        Command::Fetch => "fetch".to_string(),
        Command::Places(places) => format!("places {places}"),
        other => format!("{other:?}"),
    }
}

/// What stands in place of a command that is out of turn.
fn in_turn(day: &Day, command: Command) -> String {
    let sheet = &day.sheet;
    let missing = |order: &[u16]| usize::from(sheet.count) - order.len();
    let next = match day.plan.phase() {
        Phase::Empty => "'plan' comes first".to_string(),
        Phase::Steps => {
            let missing = usize::from(sheet.count) - sheet.steps.len();
            format!("'step' is in turn, {missing} more")
        }
        Phase::Orders => match (missing(&sheet.activation), missing(&sheet.execution)) {
            (0, 0) => "'begin' is in turn".to_string(),
            (0, left) if sheet.execution.is_empty() => {
                format!("'begin' is in turn, or 'execution' of {left} steps")
            }
            (0, left) => format!("'execution' is in turn, {left} more"),
            (left, _) => format!("'activation' is in turn, {left} more"),
        },
        Phase::Running => match command {
            Command::Plan { .. } => "the day of the last plan is not over".to_string(),
            _ => "'done' and 'places' are in turn".to_string(),
        },
        Phase::Ready => "'fetch' is in turn: the trolley stands in the cold room".to_string(),
        Phase::Over => "the day is over, and 'plan' is in turn".to_string(),
        _ => "it is not in turn".to_string(),
    };
    match day.plan.phase() {
        Phase::Empty | Phase::Orders | Phase::Ready | Phase::Over => next,
        _ => format!("{}; {next}", phase(day)),
    }
}

fn repeated(day: &Day, step: u16, order: &[u16]) -> String {
    let place = order.iter().position(|&entry| entry == step);
    let place = place.map_or(0, |place| place + 1);
    let label = day.sheet.label(step);
    format!("step {label} stands in that order already, at place {place}")
}

fn not_running(day: &Day, step: u16) -> String {
    match day.plan.why(step) {
        Ok(told) => format!("step {}", reason(day, step, told)),
        Err(refusal) => refusal.to_string(),
    }
}

fn roots(day: &Day) -> String {
    match &day.sheet.roots()[..] {
        [] => "no step has 'parent -', and one has to be the last".to_string(),
        roots => format!(
            "{} steps have 'parent -', and one alone can be the last: {}",
            roots.len(),
            day.sheet.labels(roots)
        ),
    }
}

/// The steps whose chain of parents goes round in a circle.
fn unreached(day: &Day) -> String {
    let sheet = &day.sheet;
    let parent = |step: u16| sheet.step(step).map_or(0, |step| step.record.parent);
    let is_unreached = |&step: &u16| {
        let mut at = step;
        // A chain that is longer than all steps goes round.
        (0..=sheet.steps.len()).all(|_| {
            at = parent(at);
            at != 0
        })
    };
    match sheet.numbers().find(is_unreached) {
        Some(step) => format!(
            "the chain of parents of step {} never reaches the last step",
            sheet.label(step)
        ),
        None => Refusal::RootUnreached.to_string(),
    }
}

/// The first step of the activation order that stands behind its parent.
fn parent_first(day: &Day) -> String {
    let sheet = &day.sheet;
    let mut passed = vec![false; sheet.steps.len() + 1];
    for &step in &sheet.activation {
        passed[usize::from(step)] = true;
        let parent = sheet.step(step).map_or(0, |step| step.record.parent);
        if passed[usize::from(parent)] {
            return format!(
                "in the activation order step {} stands behind step {}, which it feeds",
                sheet.label(step),
                sheet.label(parent)
            );
        }
    }
    Refusal::ParentFirst.to_string()
}

fn peak(day: &Day, given: u64) -> String {
    match desk_peak(&day.sheet.records(), &day.sheet.activation) {
        Ok(DeskPeak { peak, by, .. }) => format!(
            "needs {} at step {}; there are {given}",
            places(peak),
            day.sheet.label(by)
        ),
        Err(refusal) => refusal.to_string(),
    }
}

/// The order that the library finds, if it fits, or that none of its kind does.
fn order_that_fits(day: &Day, file: Option<&str>) -> Option<String> {
    let order = day.found(Order::Activation).ok()?;
    let DeskPeak { peak, .. } = desk_peak(&day.sheet.records(), &order).ok()?;
    if peak > day.sheet.places.into() {
        return Some(format!(
            "no order that finishes each branch before the next fits: the best needs {}",
            places(peak)
        ));
    }
    let line = order_lines("activation", &order);
    let named = match order.len() {
        0..=SHORT_ORDER => format!("'{}'", line.trim_end().replace("\nactivation", "")),
        _ => "the order that is found".to_string(),
    };
    let how = match file {
        Some(file) => format!(" (cephlouk order --write {file})"),
        None => " ('activation found')".to_string(),
    };
    Some(format!("{named} needs {peak}{how}"))
}
