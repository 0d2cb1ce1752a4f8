//! Flaws of a plan, to be met by STEP, 03, 04 or BEGIN.

use super::draft::Draft;
use super::orders;
use super::random::Random;
use crate::desk::desk_peak;
use crate::record::index;

#[derive(Clone, Copy)]
enum Flaw {
    TaskCount,
    ProcessorCount,
    Parent,
    Entry,
    RepeatedEntry,
    OneEntryMore,
    OneEntryLess,
    OneTaskMore,
    OneTaskLess,
    NoRoot,
    TwoRoots,
    OwnParent,
    Cycle,
    ParentFirst,
    BoundBelowPeak,
    PartOfExecution,
}

/// Flaws that need another task beside the root come last; one is twice as likely.
const FLAWS: [Flaw; 17] = [
    Flaw::TaskCount,
    Flaw::ProcessorCount,
    Flaw::Parent,
    Flaw::Entry,
    Flaw::OneEntryMore,
    Flaw::OneEntryLess,
    Flaw::OneTaskMore,
    Flaw::OneTaskLess,
    Flaw::NoRoot,
    Flaw::BoundBelowPeak,
    Flaw::RepeatedEntry,
    Flaw::TwoRoots,
    Flaw::OwnParent,
    Flaw::Cycle,
    Flaw::ParentFirst,
    Flaw::PartOfExecution,
    Flaw::PartOfExecution,
];
const FLAWS_OF_ONE_TASK: usize = 10;

/// Puts one flaw into a valid plan.
pub(crate) fn spoil(random: &mut Random, draft: &mut Draft) {
    let n = draft.records.len();
    let choices = if n == 1 {
        FLAWS_OF_ONE_TASK
    } else {
        FLAWS.len()
    };
    match random.pick(&FLAWS[..choices]) {
        Flaw::TaskCount => draft.tasks = random.pick(&[0, 1025, 1026, 32_768, 65_535]),
        Flaw::ProcessorCount => draft.processors = random.pick(&[0, 65, 66, 255]),
        Flaw::Parent => {
            draft.records[random.below(n)].parent = random.pick(&[n as u16 + 1, 1025, 65_535]);
        }
        Flaw::Entry => {
            let wrong = random.pick(&[0, n as u16 + 1, 1025, 65_535]);
            some_order(random, draft)[random.below(n)] = wrong;
        }
        Flaw::RepeatedEntry => {
            let later = 1 + random.below(n - 1);
            let order = some_order(random, draft);
            order[later] = order[random.below(later)];
        }
        Flaw::OneEntryMore => {
            let again = random.between(0, n as u32 + 1) as u16;
            some_order(random, draft).push(again);
        }
        Flaw::OneEntryLess => {
            draft.activation.pop();
        }
        Flaw::OneTaskMore => draft.records.push(draft.records[0]),
        Flaw::OneTaskLess => {
            draft.records.pop();
        }
        Flaw::NoRoot => {
            let root = draft.activation[n - 1];
            draft.records[index(root)].parent = random.between(1, n as u32) as u16;
        }
        Flaw::TwoRoots => {
            let task = below_root(random, draft);
            draft.records[index(task)].parent = 0;
        }
        Flaw::OwnParent => {
            let task = below_root(random, draft);
            draft.records[index(task)].parent = task;
        }
        Flaw::Cycle => {
            let (one, other) = (below_root(random, draft), below_root(random, draft));
            draft.records[index(one)].parent = other;
            draft.records[index(other)].parent = one;
        }
        Flaw::ParentFirst => put_parent_first(random, draft),
        Flaw::BoundBelowPeak => {
            let peak = desk_peak(&draft.records, &draft.activation).peak;
            draft.memory_bound = random.pick(&[peak.saturating_sub(1), peak / 2, 0]);
        }
        Flaw::PartOfExecution => {
            let part = 1 + random.below(n - 1);
            draft.execution = orders::execution(random, &draft.activation);
            draft.execution.truncate(random.pick(&[1, part, n - 1]));
        }
    }
}

/// One of the orders that will come.
fn some_order<'a>(random: &mut Random, draft: &'a mut Draft) -> &'a mut Vec<u16> {
    if draft.execution.is_empty() || random.chance(50) {
        &mut draft.activation
    } else {
        &mut draft.execution
    }
}

/// A task other than the root, which ends each valid activation order.
fn below_root(random: &mut Random, draft: &Draft) -> u16 {
    draft.activation[random.below(draft.activation.len() - 1)]
}

/// Lets a task and its parent change places in the activation order.
fn put_parent_first(random: &mut Random, draft: &mut Draft) {
    let task = below_root(random, draft);
    let parent = draft.records[index(task)].parent;
    for entry in &mut draft.activation {
        if *entry == task {
            *entry = parent;
        } else if *entry == parent {
            *entry = task;
        }
    }
}
