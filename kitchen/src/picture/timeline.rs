//! A day along a time axis: when each step was booked, started and ended, and at
//! which station. All of it is read off the moments, that is, off what the library
//! answered.

use crate::day::{Day, Moment, Report};
use crate::simulate::{reported_times, simulate};
use cephlouk::{Phase, Refusal};
use std::collections::VecDeque;

/// What the time axis counts.
#[derive(Clone, Copy, Debug, PartialEq, Eq)]
pub enum Unit {
    /// Minutes since BEGIN.
    Minutes,
    /// Minutes since midnight.
    Clock,
    /// A column a report.
    Reports,
}

/// What a step went through: the places of moments.
#[derive(Clone, Copy, Debug, Default)]
pub struct Way {
    pub booked: Option<usize>,
    pub started: Option<usize>,
    pub ended: Option<usize>,
    /// When its out was taken: its parent started, or it was fetched.
    pub taken: Option<usize>,
    pub station: usize,
}

/// A day that goes on is drawn a part longer than its reports: one of so many.
const TAIL: u32 = 20;

pub struct Timeline {
    pub day: Day,
    pub unit: Unit,
    /// The time of each moment.
    pub times: Vec<u32>,
    /// Of each step, by its number less 1.
    pub ways: Vec<Way>,
    /// When the last step ended, if it did.
    pub length: Option<u32>,
}

/// Why there is nothing to draw.
#[derive(Debug)]
pub enum Undrawn {
    /// There is no day, and this step has no minutes to make one by.
    NoMinutes(u16),
    /// There is no day, and the plan's own is refused.
    Refused(Refusal),
    NoPlan,
}

impl Timeline {
    /// The day of a text; where it has none, the one that its minutes give.
    pub fn of(day: Day) -> Result<Timeline, Undrawn> {
        if day.sheet.steps.is_empty() {
            return Err(Undrawn::NoPlan);
        }
        if day.plan.phase() == Phase::Orders || day.moments.is_empty() {
            let minutes = day.sheet.minutes().map_err(Undrawn::NoMinutes)?;
            let simulated = simulate(&day, &minutes).map_err(Undrawn::Refused)?;
            return Ok(Timeline::new(simulated.day, Unit::Minutes, simulated.times));
        }
        let clock: Option<Vec<u32>> = day
            .moments
            .iter()
            .map(|moment| moment.at.map(|time| time.minutes()))
            .collect();
        let (unit, times) = match (clock, day.sheet.minutes()) {
            (Some(times), _) => (Unit::Clock, times),
            (None, Ok(minutes)) => (Unit::Minutes, reported_times(&day, &minutes)),
            (None, Err(_)) => (Unit::Reports, (0..).take(day.moments.len()).collect()),
        };
        Ok(Timeline::new(day, unit, times))
    }

    fn new(day: Day, unit: Unit, times: Vec<u32>) -> Timeline {
        let mut timeline = Timeline {
            ways: vec![Way::default(); day.sheet.steps.len()],
            day,
            unit,
            times,
            length: None,
        };
        timeline.follow();
        timeline
    }

    fn follow(&mut self) {
        let (moments, sheet) = (&self.day.moments, &self.day.sheet);
        // A start goes to the station that has been free longest.
        let mut free: VecDeque<usize> = (0..sheet.stations.into()).collect();
        let mut booked = 0;
        for (now, moment) in moments.iter().enumerate() {
            if let Report::Done(step) = moment.report {
                let way = &mut self.ways[usize::from(step) - 1];
                way.ended = Some(now);
                free.push_back(way.station);
                if sheet.step(step).is_some_and(|step| step.record.parent == 0) {
                    self.length = Some(self.times[now]);
                }
            }
            booked = book(&mut self.ways, &sheet.activation, booked, moment, now);
            for &step in &moment.starts {
                let way = &mut self.ways[usize::from(step) - 1];
                way.started = Some(now);
                way.station = free.pop_front().unwrap_or_default();
            }
            if moment.report == Report::Fetch {
                for root in sheet.roots() {
                    self.ways[usize::from(root) - 1].taken = Some(now);
                }
            }
        }
        for (place, step) in sheet.steps.iter().enumerate() {
            if let Some(parent) = usize::from(step.record.parent).checked_sub(1) {
                self.ways[place].taken = self.ways[parent].started;
            }
        }
    }

    /// The first and the last time that are drawn.
    pub fn ends(&self) -> (u32, u32) {
        let first = self.times.first().copied().unwrap_or(0);
        let last = self.times.last().copied().unwrap_or(0);
        let first = if self.unit == Unit::Clock { first } else { 0 };
        // What stands after the last report of a day that goes on is seen too.
        let tail = match self.day.is_over() {
            true => 0,
            false => ((last - first) / TAIL).max(1),
        };
        (first, (last + tail).max(first + 1))
    }

    /// The time of a moment; of one that has not come, the end.
    pub fn time(&self, moment: Option<usize>) -> u32 {
        moment.map_or(self.ends().1, |moment| self.times[moment])
    }

    /// The next moment at another time, where what stands at one is drawn up to.
    pub fn until(&self, moment: usize) -> u32 {
        self.times.get(moment + 1).copied().unwrap_or(self.ends().1)
    }
}

/// All steps ahead of the first waiting one are booked. Answers how many are.
fn book(ways: &mut [Way], activation: &[u16], booked: usize, moment: &Moment, now: usize) -> usize {
    let mut at = booked;
    while let Some(&step) = activation.get(at) {
        if moment.next.is_some_and(|next| next.step == step) {
            break;
        }
        ways[usize::from(step) - 1].booked = Some(now);
        at += 1;
    }
    at
}
