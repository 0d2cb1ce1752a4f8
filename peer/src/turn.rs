//! Commands in turn: which phase takes which command, and where it leads.

use crate::answer::Answer;
use crate::command::{decode, Command};
use crate::order::Order;
use crate::phase::Phase;
use crate::plan::Plan;
use crate::record::Record;
use crate::refusal::Refusal;

impl Plan {
    /// Gives the plan the command at a place in a stream, together with the
    /// caller's start list. A refusal changes neither the plan nor the list.
    pub fn command(&mut self, stream: &[u8], place: usize, starts: &mut [u16]) -> Answer {
        self.take(stream, place, starts)
            .unwrap_or_else(Answer::refused)
    }

    fn take(&mut self, stream: &[u8], place: usize, starts: &mut [u16]) -> Result<Answer, Refusal> {
        if starts.len() < Plan::STARTS {
            return Err(Refusal::ShortStartList);
        }
        let (command, used) = decode(stream, place)?;
        let answer = match command {
            Command::Plan {
                tasks,
                processors,
                memory_bound,
            } => self.open(tasks, processors, memory_bound),
            Command::Step(record) => self.step(record),
            Command::Activation(task) => {
                self.check_entry(&self.activation, task)?;
                self.activation.push(task);
                Ok(Answer::default())
            }
            Command::Execution(task) => {
                self.check_entry(&self.execution, task)?;
                self.execution.push(task);
                Ok(Answer::default())
            }
            Command::Begin => self.begin(starts),
            Command::Done(task) => self.done(task, starts),
            Command::Fetch => self.fetch(),
            Command::Places(bound) => self.places(bound, starts),
        }?;
        Ok(Answer { used, ..answer })
    }

    /// PLAN: drop the old plan, open a new one. In turn in every phase but
    /// running and ready.
    fn open(&mut self, tasks: u16, processors: u8, bound: u32) -> Result<Answer, Refusal> {
        if matches!(self.phase, Phase::Running | Phase::Ready) {
            return Err(Refusal::OutOfTurn);
        }
        let (tasks, processors) = (usize::from(tasks), usize::from(processors));
        if !(1..=Plan::TASKS).contains(&tasks) || !(1..=Plan::PROCESSORS).contains(&processors) {
            return Err(Refusal::OutsideLimits);
        }
        self.phase = Phase::Steps;
        self.tasks = tasks;
        self.processors = processors;
        self.memory_bound = bound;
        self.given = 0;
        self.activation.clear();
        self.execution.clear();
        Ok(Answer::default())
    }

    /// STEP: the next task; the n-th leads to orders.
    fn step(&mut self, record: Record) -> Result<Answer, Refusal> {
        if self.phase != Phase::Steps {
            return Err(Refusal::OutOfTurn);
        }
        if usize::from(record.parent) > self.tasks {
            return Err(Refusal::OutsideLimits);
        }
        self.records[self.given] = record;
        self.given += 1;
        if self.given == self.tasks {
            self.phase = Phase::Orders;
        }
        Ok(Answer::default())
    }

    /// Whether a task may come next in one of the two orders.
    fn check_entry(&self, order: &Order, task: u16) -> Result<(), Refusal> {
        if self.phase != Phase::Orders || self.is_complete(order) {
            return Err(Refusal::OutOfTurn);
        }
        self.check_number(task)?;
        if order.holds(task) {
            return Err(Refusal::Repeated);
        }
        Ok(())
    }

    /// A step number is 1 to n.
    pub(crate) fn check_number(&self, task: u16) -> Result<(), Refusal> {
        if (1..=self.tasks).contains(&usize::from(task)) {
            Ok(())
        } else {
            Err(Refusal::OutsideLimits)
        }
    }
}
