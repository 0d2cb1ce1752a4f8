//! Why a task isn't starting.

use crate::figures::Standing;
use crate::phase::Phase;
use crate::plan::Plan;
use crate::record::index;
use crate::refusal::Refusal;

/// What is told of a task: of the cases below `Refused`, the first that is
/// true.
#[derive(Clone, Copy, Debug, PartialEq, Eq)]
pub enum Reason {
    /// The number of the ground for refusing: 3 outside running, then 4 for
    /// the step number.
    Refused(u8),
    /// It has ended.
    Ended,
    /// It is running.
    Running,
    /// It is not booked.
    NotBooked {
        /// The first waiting task in the activation order.
        first: u16,
        /// The trays which that task lacks.
        lack: u32,
    },
    /// It waits for a feeder: its lowest-numbered unended child.
    Unfed(u16),
    /// All stations are taken.
    NoProcessor,
}

impl Plan {
    /// Tells why a task isn't starting.
    pub fn why(&self, task: u16) -> Reason {
        self.reason(task)
            .unwrap_or_else(|refusal| Reason::Refused(refusal.number()))
    }

    fn reason(&self, task: u16) -> Result<Reason, Refusal> {
        if self.phase != Phase::Running {
            return Err(Refusal::OutOfTurn);
        }
        self.check_number(task)?;
        Ok(match self.figures[index(task)].standing {
            Standing::Finished => Reason::Ended,
            Standing::Running => Reason::Running,
            Standing::Waiting => self.not_booked(),
            // Nothing but a feeder or a processor keeps a booked task.
            Standing::Activated => self
                .unended_child(task)
                .map_or(Reason::NoProcessor, Reason::Unfed),
        })
    }

    /// The reason of every waiting task, while there is one: the first of them
    /// lacks B + missing - M.
    fn not_booked(&self) -> Reason {
        let first = self.activation.entries()[self.activated];
        // Booking ahead stopped at it: it misses more than M - B.
        let lack = self.missing(first) - (self.memory_bound - self.booked);
        Reason::NotBooked { first, lack }
    }

    /// The lowest-numbered child that has not ended.
    fn unended_child(&self, task: u16) -> Option<u16> {
        let is_unended = |child: u16| self.figures[index(child)].standing != Standing::Finished;
        (1..=self.tasks as u16)
            .find(|&child| self.records[index(child)].parent == task && is_unended(child))
    }
}

#[cfg(test)]
mod tests {
    use super::*;
    use crate::generate::stream;

    /// Looks at a plan after each command that it takes of a stream.
    fn follow(stream: &[u8], mut look: impl FnMut(&Plan)) {
        let mut plan = Plan::new();
        let mut starts = [0; Plan::STARTS];
        let mut place = 0;
        loop {
            let answer = plan.command(stream, place, &mut starts);
            if answer.number != 0 {
                return;
            }
            place += answer.used;
            look(&plan);
        }
    }

    fn waits(plan: &Plan, task: u16) -> bool {
        plan.figures[index(task)].standing == Standing::Waiting
    }

    /// Whether booking ahead would book a task now, with so many more places.
    fn is_booked_with(more: u32, plan: &Plan, task: u16) -> bool {
        let mut plan = plan.clone();
        plan.memory_bound += more;
        plan.activate();
        !waits(&plan, task)
    }

    /// Checks the reason of each waiting task; tells how many wait.
    fn check_waiting(plan: &Plan) -> usize {
        if plan.phase != Phase::Running {
            return 0;
        }
        let entries = plan.activation.entries().iter().copied();
        let waiting: Vec<u16> = entries.filter(|&task| waits(plan, task)).collect();
        let Some(&earliest) = waiting.first() else {
            return 0;
        };
        let reason = plan.why(earliest);
        let Reason::NotBooked { first, lack } = reason else {
            panic!("{reason:?}");
        };
        assert_eq!(first, earliest);
        assert!(lack >= 1);
        assert!(is_booked_with(lack, plan, first));
        assert!(!is_booked_with(lack - 1, plan, first));
        assert!(waiting.iter().all(|&task| plan.why(task) == reason));
        waiting.len()
    }

    #[test]
    fn the_lack_is_exact() {
        let mut checked = 0;
        for seed in 2000..2250 {
            follow(&stream(seed), |plan| checked += check_waiting(plan));
        }
        assert!(checked > 100_000);
    }
}
