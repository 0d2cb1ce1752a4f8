//! Watches a day and checks what must hold after each of its commands.

use crate::menu::{ask, Menu};
use peer::{decode, fullness, needs, Answer, Command, Phase, Plan, Record};

/// What the accepted commands of a plan say: the plan itself, and of its day
/// the bounds, the starts, the ends and the fetch alone.
#[derive(Default)]
pub struct Watch {
    pub tasks: usize,
    pub processors: usize,
    /// The bound in force.
    pub memory_bound: u32,
    pub records: Vec<Record>,
    pub activation: Vec<u16>,
    execution: Vec<u16>,
    pub needs: Vec<u32>,
    started: Vec<bool>,
    pub ended: Vec<bool>,
    fetched: bool,
    /// Days that came to their end.
    pub days: usize,
}

/// Gives an empty plan the commands of a stream, as far as it takes them, and
/// looks at it after each. Answers what was seen, the plan at the end, and the
/// number that refused the next command.
pub fn follow(stream: &[u8], mut look: impl FnMut(&Watch, &Plan)) -> (Watch, Plan, u8) {
    let (mut plan, mut watch) = (Plan::new(), Watch::default());
    let mut place = 0;
    loop {
        let (answer, starts) = ask(&mut plan, stream, place, Plan::STARTS);
        if answer.number != 0 {
            return (watch, plan, answer.number);
        }
        watch.accepted(stream, place, &answer, &starts);
        look(&watch, &plan);
        place += answer.used;
    }
}

impl Watch {
    /// Takes note of an accepted command and its starts, then checks the day.
    pub fn accepted(&mut self, bytes: &[u8], place: usize, answer: &Answer, starts: &[u16]) {
        let (command, used) = decode(bytes, place).unwrap();
        assert_eq!(answer.used, used);
        match command {
            Command::Plan {
                tasks,
                processors,
                memory_bound,
            } => {
                *self = Watch {
                    tasks: tasks.into(),
                    processors: processors.into(),
                    memory_bound,
                    days: self.days,
                    ..Watch::default()
                };
            }
            Command::Step(record) => self.records.push(record),
            Command::Activation(task) => self.activation.push(task),
            Command::Execution(task) => self.execution.push(task),
            Command::Begin => {
                if self.execution.is_empty() {
                    self.execution = self.activation.clone();
                }
                self.needs = needs(&self.records)[..self.records.len()].to_vec();
                self.started = vec![false; self.records.len()];
                self.ended = vec![false; self.records.len()];
            }
            Command::Done(task) => self.end(task),
            Command::Fetch => self.fetched = true,
            Command::Places(bound) => self.memory_bound = bound,
        }
        for &task in starts {
            self.start(task);
        }
    }

    fn start(&mut self, task: u16) {
        let index = usize::from(task) - 1;
        assert!(!self.started[index], "{task} starts twice");
        self.started[index] = true;
        let mut feeders = self.records.iter().zip(&self.ended);
        assert!(feeders.all(|(record, &ended)| record.parent != task || ended));
    }

    fn end(&mut self, task: u16) {
        let index = usize::from(task) - 1;
        assert!(self.started[index] && !self.ended[index]);
        self.ended[index] = true;
        if self.ended.iter().all(|&ended| ended) {
            self.days += 1;
        }
    }

    /// The plan as it was given, but for the bound in force, and its activation
    /// order twice if it began without the other; none unless both its orders are
    /// complete.
    pub fn menu(&self) -> Option<Menu> {
        let is_complete = |order: &[u16]| self.tasks > 0 && order.len() == self.tasks;
        let both_are = is_complete(&self.activation) && is_complete(&self.execution);
        both_are.then(|| Menu {
            processors: self.processors as u8,
            memory_bound: self.memory_bound,
            records: self.records.clone(),
            activation: self.activation.clone(),
            execution: self.execution.clone(),
        })
    }

    /// Checks the day, whether the last command was accepted or refused.
    pub fn check(&self, plan: &Plan) {
        let n = self.started.len();
        if n == 0 {
            assert_eq!(
                (plan.booked(), plan.in_use(), plan.standing()),
                (0, 0, [0; 4])
            );
            return;
        }
        let reports = self.ended.iter().filter(|&&ended| ended).count();
        let running = self.running();
        assert_eq!(running > 0, reports < n);
        assert!(running <= self.processors);
        if reports == n {
            assert!(self.started.iter().all(|&started| started));
            assert_eq!(plan.booked(), self.in_use());
        }
        assert_eq!(plan.phase(), self.phase(reports));
        let [waiting, activated, by_running, finished] =
            plan.standing().map(|count| count as usize);
        assert_eq!((by_running, finished), (running, reports));
        assert_eq!(waiting + activated + by_running + finished, n);
        self.check_memory(plan);
    }

    /// The phase of a day with so many reports.
    fn phase(&self, reports: usize) -> Phase {
        match (reports == self.started.len(), self.fetched) {
            (false, false) => Phase::Running,
            (false, true) => panic!("fetched too early"),
            (true, false) => Phase::Ready,
            (true, true) => Phase::Over,
        }
    }

    fn check_memory(&self, plan: &Plan) {
        let n = self.started.len();
        assert_eq!(plan.in_use(), self.in_use());
        assert_eq!(plan.fullness(), fullness(plan.booked(), self.memory_bound));
        assert!(plan.in_use() <= plan.booked());
        assert!(plan.booked() <= self.memory_bound);
        let numbers = 1..=n as u16;
        assert_eq!(
            numbers.map(|task| plan.booked_by(task)).sum::<u32>(),
            plan.booked()
        );
        for task in (0..n).filter(|&task| self.is_running(task)) {
            assert_eq!(plan.booked_by(task as u16 + 1), self.needs[task]);
        }
    }

    /// How many tasks run.
    pub fn running(&self) -> usize {
        let tasks = 0..self.started.len();
        tasks.filter(|&task| self.is_running(task)).count()
    }

    /// Whether the task at this index runs.
    pub fn is_running(&self, task: usize) -> bool {
        self.started[task] && !self.ended[task]
    }

    /// The needs of running tasks + the outs of finished ones whose parent has
    /// not started, or that were not fetched.
    fn in_use(&self) -> u32 {
        let held = |task: usize| {
            let record = self.records[task];
            let is_gone = match record.parent {
                0 => self.fetched,
                parent => self.started[usize::from(parent) - 1],
            };
            if self.is_running(task) {
                self.needs[task]
            } else if self.ended[task] && !is_gone {
                record.out.into()
            } else {
                0
            }
        };
        (0..self.records.len()).map(held).sum()
    }
}
