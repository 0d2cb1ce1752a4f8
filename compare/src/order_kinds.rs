//! The kinds of cases in which an order is asked for. Each of them must come.

use crate::kinds::{Kind, OfKinds};
use crate::orders::FindOrder;
use crate::tool::{last_plan, led};
use crate::tool_kinds::of_tool;
use peer::generate::encode;
use peer::{Command, Phase, Plan, Record};
use std::collections::BTreeSet;
use std::iter::successors;

/// Among so many cases there are several of each kind.
const CASES: u64 = 10_000;

#[test]
fn every_kind_of_order_comes() {
    let kinds = of_tool::<FindOrder, Case>(CASES, |commands, lent, answer| {
        Some(Case::new(commands, lent, answer))
    });
    assert!(!kinds.lack_a_kind(), "{kinds}");
}

/// What led to an answer, and the answer.
struct Case {
    phase: Phase,
    /// Whether another plan was opened before.
    is_later: bool,
    /// n.
    tasks: usize,
    /// M.
    memory_bound: u32,
    records: Vec<Record>,
    /// The list as it is left.
    lent: Vec<u16>,
    number: u64,
    /// The number of BEGIN with the order that was found.
    begin: u64,
}

/// A task and all below it, as an order that was found takes them.
#[derive(Clone, Copy, Default)]
struct Subtree {
    /// How many children the task has.
    children: usize,
    /// Their outs.
    held: u32,
    peak: u32,
}

impl OfKinds for Case {
    const KINDS: &'static [Kind<Case>] = &[
        ("3 in empty", |case| case.answers_in(3, Phase::Empty)),
        ("3 in steps", |case| case.answers_in(3, Phase::Steps)),
        ("0 in orders", |case| case.answers_in(0, Phase::Orders)),
        ("0 in running", |case| case.answers_in(0, Phase::Running)),
        ("0 in ready", |case| case.answers_in(0, Phase::Ready)),
        ("0 in over", |case| case.answers_in(0, Phase::Over)),
        ("0 behind an earlier plan", |case| {
            case.number == 0 && case.is_later
        }),
        ("a list of n - 1", |case| case.answers_with(11, -1)),
        ("a list of n", |case| case.answers_with(0, 0)),
        ("a list of n + 1", |case| case.answers_with(0, 1)),
        ("a list of n - 1, n = 1,024", |case| {
            case.is_largest() && case.answers_with(11, -1)
        }),
        ("a list of n, n = 1,024", |case| {
            case.is_largest() && case.answers_with(0, 0)
        }),
        ("a list of n + 1, n = 1,024", |case| {
            case.is_largest() && case.answers_with(0, 1)
        }),
        ("a list whose length takes more than 16 bits", |case| {
            case.number == 0 && case.lent.len() > u16::MAX.into()
        }),
        ("7, no root", |case| case.number == 7 && case.roots() == 0),
        ("7, several roots", |case| {
            case.number == 7 && case.roots() > 1 && !case.has_cycle()
        }),
        ("7, several roots and a cycle", |case| {
            case.number == 7 && case.roots() > 1 && case.has_cycle()
        }),
        ("7, a short list", |case| {
            case.number == 7 && case.spare() < 0
        }),
        ("12", |case| case.number == 12 && case.spare() >= 0),
        ("12, a short list", |case| {
            case.number == 12 && case.spare() < 0
        }),
        ("a tie of leaves", |case| {
            case.has_tie(|subtree| subtree.children == 0)
        }),
        ("a tie of inner nodes", |case| {
            case.has_tie(|subtree| subtree.children > 0)
        }),
        ("BEGIN at the peak", |case| {
            case.number == 0 && case.begin == 0 && case.memory_bound == case.peak()
        }),
        ("BEGIN one place below it", |case| {
            case.begin == 9 && case.memory_bound + 1 == case.peak()
        }),
    ];
}

impl Case {
    fn new(commands: &[u8], lent: &[u16], answer: &[u64]) -> Case {
        let last = last_plan(commands);
        let bytes_of_last = last.iter().copied().flat_map(encode).count();
        let mut case = Case {
            phase: led(Plan::new(), commands).phase(),
            is_later: bytes_of_last < commands.len(),
            tasks: 0,
            memory_bound: 0,
            records: Vec::new(),
            lent: lent.to_vec(),
            number: answer[0],
            begin: answer[2],
        };
        for command in last {
            match command {
                Command::Plan {
                    tasks,
                    memory_bound,
                    ..
                } => {
                    case.tasks = tasks.into();
                    case.memory_bound = memory_bound;
                }
                Command::Step(record) => case.records.push(record),
                _ => {}
            }
        }
        case
    }

    fn answers_in(&self, number: u64, phase: Phase) -> bool {
        self.number == number && self.phase == phase
    }

    fn answers_with(&self, number: u64, spare: isize) -> bool {
        self.number == number && self.spare() == spare
    }

    /// How many more entries than tasks there are.
    fn spare(&self) -> isize {
        self.lent.len() as isize - self.tasks as isize
    }

    fn is_largest(&self) -> bool {
        self.tasks == Plan::TASKS
    }

    fn roots(&self) -> usize {
        let parents = self.records.iter().map(|record| record.parent);
        parents.filter(|&parent| parent == 0).count()
    }

    /// Whether some chain of parents is longer than there are tasks.
    fn has_cycle(&self) -> bool {
        let parent = |&task: &u16| Some(self.record(task).parent).filter(|&parent| parent != 0);
        (1..=self.tasks as u16).any(|task| successors(Some(task), parent).nth(self.tasks).is_some())
    }

    /// The order that was found, if any.
    fn order(&self) -> &[u16] {
        match self.number {
            0 => &self.lent[..self.tasks],
            _ => &[],
        }
    }

    /// The subtree of each task, at its number; at 0 that of all.
    fn subtrees(&self) -> Vec<Subtree> {
        let mut subtrees = vec![Subtree::default(); self.tasks + 1];
        for &task in self.order() {
            let Record { parent, work, out } = self.record(task);
            let subtree = &mut subtrees[usize::from(task)];
            let need = subtree.held + u32::from(work) + u32::from(out);
            subtree.peak = subtree.peak.max(need);
            let peak = subtree.peak;
            let above = &mut subtrees[usize::from(parent)];
            above.children += 1;
            above.peak = above.peak.max(above.held + peak);
            above.held += u32::from(out);
        }
        subtrees
    }

    /// The peak of the order that was found.
    fn peak(&self) -> u32 {
        self.subtrees()[0].peak
    }

    /// Whether two children of one task have the same subtree peak less out, of
    /// those whose subtrees are such.
    fn has_tie(&self, is_such: fn(&Subtree) -> bool) -> bool {
        let subtrees = self.subtrees();
        let mut keys = BTreeSet::new();
        self.order().iter().any(|&task| {
            let subtree = &subtrees[usize::from(task)];
            let Record { parent, out, .. } = self.record(task);
            is_such(subtree) && !keys.insert((parent, subtree.peak - u32::from(out)))
        })
    }

    fn record(&self, task: u16) -> Record {
        self.records[usize::from(task) - 1]
    }
}
