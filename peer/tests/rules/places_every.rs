//! Every bound at every moment of every day of small plans, beside the naive plan.

use crate::against_naive::compare;
use crate::find_every::{all_lists, records, rising_trees, Counts};
use crate::generator::Seen;
use crate::menu::Menu;
use crate::naive::Naive;
use crate::peak_sums::{need, peak_and_task};
use peer::generate::{encode, Asking};
use peer::{Command, Phase, Plan, Reason};

/// Both plans at some moment of a day.
#[derive(Clone)]
struct Moment {
    plan: Plan,
    naive: Naive,
}

impl Moment {
    /// Right after BEGIN, which is accepted.
    fn begun(menu: &Menu) -> Moment {
        let mut moment = Moment {
            plan: Plan::new(),
            naive: Naive::new(),
        };
        for command in menu.commands() {
            moment.ask(command);
        }
        assert_eq!(moment.ask(encode(Command::Begin)), 0);
        moment
    }

    /// Gives both a command; answers the number.
    fn ask(&mut self, bytes: Vec<u8>) -> u8 {
        let asking = Asking {
            bytes,
            place: 0,
            starts_len: Plan::STARTS,
        };
        compare(&mut self.plan, &mut self.naive, &asking)
    }

    /// The number that answers a command, and the moment after it.
    fn after(&self, command: Command) -> (u8, Moment) {
        let mut later = self.clone();
        (later.ask(encode(command)), later)
    }
}

/// A plan whose days are all tried.
struct Trial<'a> {
    tasks: u16,
    peak: u32,
    /// The sum of all needs: with so many places every task is booked.
    all: u32,
    seen: &'a mut Seen,
}

impl Trial<'_> {
    /// Tries each bound now, and after each report. Behind a bound that is taken
    /// the day goes on as well, with one change less to come.
    fn try_all(&mut self, now: &Moment, changes: usize) {
        for bound in 0..=self.all + 1 {
            let (number, later) = now.after(Command::Places(bound));
            let (wanted, way) = self.wanted(now, bound);
            assert_eq!(number, wanted, "{bound}");
            self.seen.note(way);
            if number == 0 && changes > 0 {
                self.report(&later, changes - 1);
            }
        }
        self.report(now, changes);
    }

    /// What has to be answered to a bound.
    fn wanted(&self, now: &Moment, bound: u32) -> (u8, &'static str) {
        match bound {
            _ if bound < self.peak => (9, "below the peak"),
            _ if bound < now.plan.booked() => (13, "below B"),
            _ => (0, "taken"),
        }
    }

    /// Goes on with the report of each running task, up to the last report.
    fn report(&mut self, now: &Moment, changes: usize) {
        let runs = |&task: &u16| now.plan.why(task) == Reason::Running;
        for task in (1..=self.tasks).filter(runs) {
            let (number, later) = now.after(Command::Done(task));
            assert_eq!(number, 0);
            if later.plan.phase() == Phase::Running {
                self.try_all(&later, changes);
            }
        }
    }
}

/// Tries all days of a plan that is opened with its peak, and of one that is
/// opened with all it could need.
fn try_plan(menu: &Menu, changes: usize, seen: &mut Seen) {
    let needs = menu
        .activation
        .iter()
        .map(|&task| need(&menu.records, task));
    let (peak, all) = (
        peak_and_task(&menu.records, &menu.activation).0,
        needs.sum(),
    );
    for memory_bound in [peak, all] {
        let begun = Moment::begun(&Menu {
            memory_bound,
            ..menu.clone()
        });
        let tasks = menu.records.len() as u16;
        let mut trial = Trial {
            tasks,
            peak,
            all,
            seen,
        };
        trial.try_all(&begun, changes);
    }
}

/// Tries all plans of these trees with these works and outs.
fn try_plans(trees: &[Vec<u16>], counts: &[Counts], changes: usize) -> Seen {
    let mut seen = Seen::default();
    for parents in trees {
        for counts in all_lists(parents.len(), counts) {
            let menu = Menu {
                records: records(parents, &counts),
                ..Menu::new(2, 0, &vec![(0, 0, 0); parents.len()])
            };
            try_plan(&menu, changes, &mut seen);
        }
    }
    seen
}

#[test]
fn of_three_tasks_with_a_change_ahead() {
    let counts = [(0, 0), (4, 0), (1, 2)];
    try_plans(&rising_trees(3), &counts, 1).check(&[
        ("below the peak", 10_000),
        ("below B", 50),
        ("taken", 10_000),
    ]);
}

#[test]
fn of_three_tasks_that_feed_one_with_a_change_ahead() {
    let counts = [(3, 0), (2, 1)];
    try_plans(&[vec![4, 4, 4, 0]], &counts, 1).check(&[
        ("below the peak", 1000),
        ("below B", 1000),
        ("taken", 1000),
    ]);
}

#[test]
fn of_four_tasks() {
    let counts = [(3, 0), (2, 1)];
    try_plans(&rising_trees(4), &counts, 0).check(&[
        ("below the peak", 4000),
        ("below B", 300),
        ("taken", 10_000),
    ]);
}
