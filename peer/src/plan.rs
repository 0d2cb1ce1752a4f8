//! The plan: its limits, its figures and the questions it answers.

use crate::available::Available;
use crate::figures::Figures;
use crate::fullness::fullness;
use crate::order::Order;
use crate::phase::Phase;
use crate::record::{index, Record};

/// A plan with its booking. All figures are kept in place, whatever n is.
#[derive(Clone)]
pub struct Plan {
    pub(crate) phase: Phase,
    /// n.
    pub(crate) tasks: usize,
    /// p.
    pub(crate) processors: usize,
    /// M, the bound in force: PLAN's, or that of the last 08 since.
    pub(crate) memory_bound: u32,
    /// How many tasks have been given.
    pub(crate) given: usize,
    pub(crate) records: [Record; Plan::TASKS],
    pub(crate) activation: Order,
    /// Given by 04; or, where no 04 came, the activation order from BEGIN on.
    pub(crate) execution: Order,
    pub(crate) figures: [Figures; Plan::TASKS],
    pub(crate) available: Available,
    /// The peak of the activation order, as BEGIN answered it.
    pub(crate) peak: u32,
    /// How many tasks no longer wait; the place in the activation order of
    /// the first that does.
    pub(crate) activated: usize,
    /// How many tasks run.
    pub(crate) running: usize,
    /// How many tasks have ended.
    pub(crate) finished: usize,
    /// B, the sum of all booked trays; 0 outside running and ready, since
    /// FETCH frees the last of them.
    pub(crate) booked: u32,
    /// Trays in use; 0 outside running and ready.
    pub(crate) in_use: u32,
}

impl Plan {
    /// The largest n.
    pub const TASKS: usize = 1024;
    /// The largest p.
    pub const PROCESSORS: usize = 64;
    /// The fewest entries of a start list.
    pub const STARTS: usize = 64;

    /// A plan in phase empty.
    pub fn new() -> Plan {
        Plan {
            phase: Phase::Empty,
            tasks: 0,
            processors: 0,
            memory_bound: 0,
            given: 0,
            records: [Record::default(); Plan::TASKS],
            activation: Order::new(),
            execution: Order::new(),
            figures: [Figures::new(0); Plan::TASKS],
            available: Available::new(),
            peak: 0,
            activated: 0,
            running: 0,
            finished: 0,
            booked: 0,
            in_use: 0,
        }
    }

    /// The phase the plan is in.
    pub fn phase(&self) -> Phase {
        self.phase
    }

    /// Booked trays, B; 0 outside running and ready.
    pub fn booked(&self) -> u32 {
        self.booked
    }

    /// Trays in use; 0 outside running and ready.
    pub fn in_use(&self) -> u32 {
        self.in_use
    }

    /// Fullness of B in M, the bound in force; 0 outside running and ready.
    pub fn fullness(&self) -> u32 {
        fullness(self.booked, self.memory_bound)
    }

    /// The booked trays of one task; 0 outside running and ready and for no
    /// task.
    pub fn booked_by(&self, task: u16) -> u32 {
        match self.check_number(task) {
            Ok(()) => self.figures[index(task)].booked,
            Err(_) => 0,
        }
    }

    /// The standing of the day: how many tasks wait, are activated, run and
    /// have finished; four zeros outside running, ready and over.
    pub fn standing(&self) -> [u32; 4] {
        if !matches!(self.phase, Phase::Running | Phase::Ready | Phase::Over) {
            return [0; 4];
        }
        let waiting = self.tasks - self.activated;
        let activated = self.activated - self.running - self.finished;
        [waiting, activated, self.running, self.finished].map(|count| count as u32)
    }

    /// Whether there is a plan and both its orders are complete.
    pub(crate) fn has_both_orders(&self) -> bool {
        self.phase != Phase::Empty
            && self.is_complete(&self.activation)
            && self.is_complete(&self.execution)
    }

    /// Whether an order of this plan has all n entries.
    pub(crate) fn is_complete(&self, order: &Order) -> bool {
        order.len() == self.tasks
    }
}

impl Default for Plan {
    fn default() -> Plan {
        Plan::new()
    }
}
