//! A day over the library: what was given, what was answered, and what the
//! library told of the plan after each answer.

use crate::sheet::Sheet;
use crate::text::{Clock, Given, Order, Place};
use cephlouk::{Command, Phase, Plan, Reason, Refusal, Standing, TaskRecord};
use std::iter;

/// A plan with what was given of it and the moments of its day.
#[derive(Clone, Default)]
pub struct Day {
    pub plan: Plan,
    pub sheet: Sheet,
    pub moments: Vec<Moment>,
}

/// What a day's command was.
#[derive(Clone, Copy, Debug, PartialEq, Eq)]
pub enum Report {
    Begin,
    Done(u16),
    Places(u32),
    Fetch,
}

/// An accepted command of a day, and what the library told after it.
#[derive(Clone, Debug)]
pub struct Moment {
    pub report: Report,
    pub at: Option<Clock>,
    pub starts: Vec<u16>,
    pub peak: u64,
    pub by: u16,
    pub offers: usize,
    /// The places in force.
    pub places: u32,
    pub booked: u32,
    pub used: u32,
    pub full: u32,
    pub standing: Standing,
    /// The first waiting step in the activation order, and the places that it
    /// lacks; none where no step waits.
    pub next: Option<Lack>,
}

#[derive(Clone, Copy, Debug, PartialEq, Eq)]
pub struct Lack {
    pub step: u16,
    pub lack: u32,
}

impl Day {
    /// Gives the plan a command. Of an accepted one of the day it answers the
    /// moment.
    pub fn give(&mut self, given: &Given) -> Result<Option<&Moment>, Refusal> {
        let accepted = self.plan.apply(given.command)?;
        let (starts, peak, by) = (accepted.starts.to_vec(), accepted.peak, accepted.by);
        let offers = accepted.offers;
        self.sheet.take(given);
        let report = match given.command {
            Command::Begin => Report::Begin,
            Command::Done(step) => Report::Done(step),
            Command::Places(places) => Report::Places(places),
            Command::Fetch => Report::Fetch,
            _ => {
                self.moments.clear();
                return Ok(None);
            }
        };
        self.moments.push(Moment {
            report,
            at: given.at,
            starts,
            peak,
            by,
            offers,
            places: self.sheet.places,
            booked: self.plan.booked(),
            used: self.plan.in_use(),
            full: self.plan.fullness(),
            standing: self.plan.standing(),
            next: self.next(),
        });
        Ok(self.moments.last())
    }

    /// The first waiting step: the last of the activation order waits as long as
    /// any does, and is told which one is first.
    fn next(&self) -> Option<Lack> {
        let &last = self.sheet.activation.last()?;
        match self.plan.why(last) {
            Ok(Reason::NotBooked { first, lack }) => Some(Lack { step: first, lack }),
            _ => None,
        }
    }

    /// An order that is good: for booking the one that the library finds, and
    /// where several steps could start, the longest way to the last step first.
    pub fn found(&self, order: Order) -> Result<Vec<u16>, Refusal> {
        let mut found = vec![0; Plan::MAX_TASKS];
        let count = self.plan.find_order(&mut found)?;
        found.truncate(count);
        if order == Order::Execution {
            let ways = self.ways(&found);
            // Equal ones stay in the order of booking.
            found.sort_by_key(|&step| std::cmp::Reverse(ways[usize::from(step) - 1]));
        }
        Ok(found)
    }

    /// For each step the minutes from its start to the end of the last one, with
    /// nobody waiting. Where some step has no minutes, each counts as one.
    fn ways(&self, children_first: &[u16]) -> Vec<u64> {
        let count = self.sheet.steps.len();
        let minutes = self.sheet.minutes().unwrap_or_else(|_| vec![1; count]);
        let mut ways = vec![0; count];
        for &step in children_first.iter().rev() {
            let place = usize::from(step) - 1;
            let parent = usize::from(self.sheet.steps[place].record.parent);
            let behind = parent.checked_sub(1).map_or(0, |parent| ways[parent]);
            ways[place] = u64::from(minutes[place]) + behind;
        }
        ways
    }

    /// The same plan with other places and stations, its day not begun.
    pub fn with(&self, places: u32, stations: u8) -> Result<Day, Refusal> {
        let sheet = &self.sheet;
        let mut day = Day::default();
        let open = Command::Plan {
            steps: sheet.count,
            stations,
            places,
        };
        let steps = sheet.steps.iter().map(|step| {
            let TaskRecord { parent, work, out } = step.record;
            Command::Step { parent, work, out }
        });
        let activation = sheet
            .activation
            .iter()
            .map(|&step| Command::Activation(step));
        let execution = sheet.execution.iter().map(|&step| Command::Execution(step));
        for command in iter::once(open)
            .chain(steps)
            .chain(activation)
            .chain(execution)
        {
            day.give(&Given::plain(command, Place::nowhere()))?;
        }
        Ok(day)
    }

    /// Whether the last plan's day is over.
    pub fn is_over(&self) -> bool {
        self.plan.phase() == Phase::Over
    }
}
