//! A whole day by the minutes of its steps: each step ends when its minutes are
//! over, and the library is told at once.

use crate::day::{Day, Report};
use crate::text::{Given, Place};
use cephlouk::{Command, Phase, Refusal};
use std::cmp::Reverse;
use std::collections::BinaryHeap;

/// A day that was run by its minutes.
pub struct Simulated {
    pub day: Day,
    /// The minute of each moment.
    pub times: Vec<u32>,
    /// When the last step ended.
    pub length: u32,
}

/// Runs a plan that has its orders and has not begun, up to the fetch. Steps that
/// end in the same minute are reported as they started.
pub fn simulate(plan: &Day, minutes: &[u32]) -> Result<Simulated, Refusal> {
    let mut simulated = Simulated {
        day: plan.clone(),
        times: Vec::new(),
        length: 0,
    };
    let mut running = BinaryHeap::new();
    let mut started = 0_u32;
    let mut starts = simulated.report(Command::Begin)?;
    loop {
        for step in starts {
            let end = simulated.length + minutes[usize::from(step) - 1];
            running.push(Reverse((end, started, step)));
            started += 1;
        }
        let Some(Reverse((end, _, step))) = running.pop() else {
            break;
        };
        simulated.length = end;
        starts = simulated.report(Command::Done(step))?;
    }
    if simulated.day.plan.phase() == Phase::Ready {
        simulated.report(Command::Fetch)?;
    }
    Ok(simulated)
}

impl Simulated {
    /// Reports a command now; answers the steps that start.
    fn report(&mut self, command: Command) -> Result<Vec<u16>, Refusal> {
        self.times.push(self.length);
        let moment = self.day.give(&Given::plain(command, Place::nowhere()))?;
        Ok(moment.map_or(Vec::new(), |moment| moment.starts.clone()))
    }
}

/// The minute of each moment of a day that was reported: where the reports say
/// no time, a step ends when its minutes are over, and not before the report
/// ahead of it.
pub fn reported_times(day: &Day, minutes: &[u32]) -> Vec<u32> {
    let mut ends = vec![0; minutes.len()];
    let mut now = 0;
    let mut times = Vec::with_capacity(day.moments.len());
    for moment in &day.moments {
        if let Report::Done(step) = moment.report {
            now = now.max(ends[usize::from(step) - 1]);
        }
        for &step in &moment.starts {
            let place = usize::from(step) - 1;
            ends[place] = now + minutes[place];
        }
        times.push(now);
    }
    times
}
