//! Counts over all askings compared.

use crate::answered::Answered;
use crate::bounds::{self, Bounds};
use crate::kept::Questions;
use crate::kinds::Kinds;
use crate::lists::of_plan;
use crate::peaks::Peak;
use cephlouk::{Phase, Plan, Refusal};
use peer::Command;
use std::fmt::{Display, Formatter, Result};

/// An answer has one of so many numbers, 0 the first.
const NUMBERS: usize = Refusal::BoundBelowBooked as usize + 1;

/// How many askings were answered in which way.
#[derive(Default)]
pub struct Tally {
    /// Plans that were opened.
    pub plans: u64,
    pub askings: u64,
    /// By the number of the answer, 0 for accepted.
    by_number: [u64; NUMBERS],
    /// Refused in the middle of a day.
    amid_days: u64,
    /// Days whose last task has ended.
    days: u64,
    /// Those of them that had the most tasks a plan may have.
    largest_days: u64,
    /// Days that began with the activation order alone.
    one_order: u64,
    /// Those of them that have the most tasks a plan may have.
    largest_with_one_order: u64,
    /// Trolleys that were fetched.
    fetched: u64,
    /// Those of them that held no trays.
    fetched_empty: u64,
    /// PLANs refused 3 while a trolley stood.
    plans_in_ready: u64,
    /// DONEs refused 3 then.
    reports_in_ready: u64,
    /// FETCHes refused 3, where none stood.
    fetched_in_vain: u64,
    /// FETCHes refused 10 where one stood, with a start list one entry short.
    short_fetches: u64,
    /// The peaks of the days that began.
    peaks: Kinds<Peak>,
    /// The bounds that 08 asked for, and the reports under those that it left.
    bounds: Kinds<bounds::Case>,
}

/// So many askings come to every kind of day.
const ENOUGH: u64 = 50_000;

impl Tally {
    /// Counts an asking, with the bounds of its plan ahead of it and the plan behind it.
    pub fn add(&mut self, answered: &Answered, bounds: Bounds, plan: &peer::Plan) {
        let Answered {
            answer,
            before,
            after,
            ..
        } = answered;
        self.askings += 1;
        self.by_number[usize::from(answer.number)] += 1;
        self.amid_days += u64::from(answer.number != 0 && after.phase == Phase::Running);
        match (before.phase, after.phase) {
            (Phase::Orders, Phase::Running) => {
                self.peaks.add(&Peak::new(&of_plan(plan)));
                if !before.is_whole {
                    self.one_order += 1;
                    self.largest_with_one_order += u64::from(is_largest(after));
                }
            }
            (Phase::Running, Phase::Ready) => {
                self.days += 1;
                self.largest_days += u64::from(is_largest(after));
            }
            (Phase::Ready, Phase::Over) => {
                self.fetched += 1;
                self.fetched_empty += u64::from(before.booked == 0);
            }
            _ => {}
        }
        self.add_refused(answered);
        self.bounds.add(&bounds::Case::new(*answered, bounds, plan));
    }

    /// Counts a whole command that is refused.
    fn add_refused(&mut self, answered: &Answered) {
        let (Some(command), Some(refusal)) = (answered.command, answered.answer.refusal()) else {
            return;
        };
        match (command, refusal, answered.before.phase) {
            (Command::Plan { .. }, Refusal::OutOfTurn, Phase::Ready) => self.plans_in_ready += 1,
            (Command::Done(_), Refusal::OutOfTurn, Phase::Ready) => self.reports_in_ready += 1,
            (Command::Fetch, Refusal::OutOfTurn, _) => self.fetched_in_vain += 1,
            (Command::Fetch, Refusal::FewStarts, Phase::Ready) if answered.is_one_short() => {
                self.short_fetches += 1
            }
            _ => {}
        }
    }

    /// Whether enough askings were compared, and yet none of a kind of day or peak,
    /// or too few of a kind of 08.
    pub fn lacks_a_kind(&self) -> bool {
        let kinds = [
            self.largest_days,
            self.largest_with_one_order,
            self.fetched,
            self.fetched_empty,
            self.plans_in_ready,
            self.reports_in_ready,
            self.fetched_in_vain,
            self.short_fetches,
        ];
        let is_lacking = [self.peaks.lack_a_kind(), self.bounds.lack_a_kind()];
        self.askings >= ENOUGH && (kinds.contains(&0) || is_lacking.contains(&true))
    }
}

/// Whether a plan in its day has the most tasks that a plan may have.
fn is_largest(plan: &Questions) -> bool {
    let counts = plan.standing;
    let tasks = counts.waiting + counts.activated + counts.running + counts.finished;
    tasks as usize == Plan::MAX_TASKS
}

impl Display for Tally {
    fn fmt(&self, to: &mut Formatter) -> Result {
        let [accepted, refused @ ..] = self.by_number;
        write!(to, "{} askings of {} plans", self.askings, self.plans)?;
        write!(to, ": {accepted} accepted")?;
        for (number, count) in (1..).zip(refused) {
            write!(to, ", {count} refused {number}")?;
        }
        write!(
            to,
            "; {} refused in the middle of days; {} days to their end, {} of them of {} steps; \
             {} begun with one order, {} of them of as many; {} fetched, {} of them with no trays; \
             refused 3 in ready {} PLANs and {} DONEs, elsewhere {} FETCHes; \
             refused 10 in ready {} FETCHes with a list one short; peaks {}; 08: {}",
            self.amid_days,
            self.days,
            self.largest_days,
            Plan::MAX_TASKS,
            self.one_order,
            self.largest_with_one_order,
            self.fetched,
            self.fetched_empty,
            self.plans_in_ready,
            self.reports_in_ready,
            self.fetched_in_vain,
            self.short_fetches,
            self.peaks,
            self.bounds
        )
    }
}

#[cfg(test)]
mod tests {
    use super::*;
    use crate::turns::compare;

    /// A seed from which so many askings come to every kind.
    const SEED: u64 = 403;

    /// By the peer alone.
    #[test]
    fn every_kind_comes_and_a_missing_one_is_told() {
        let mut tally = compare(|_| peer::Plan::new(), ENOUGH, SEED).expect("no difference");
        assert!(!tally.lacks_a_kind(), "{tally}");
        tally.bounds = Kinds::default();
        assert!(tally.lacks_a_kind(), "{tally}");
    }
}
