//! A plan's opening and its steps, to find an activation order for.

use super::draft::Draft;
use super::random::Random;
use super::siblings;
use crate::desk::desk_peak;
use crate::postorder::best_postorder;
use crate::record::{index, Record};

/// PLAN and all its steps: a tree of any shape, or a flawed one with more than one
/// root, no root, or steps whose chain of parents never reaches it, with one of the
/// other flaws at times. M is often the least peak of the orders that finish each
/// subtree before its neighbour, or one less.
pub fn steps_only(random: &mut Random) -> Vec<u8> {
    let mut draft = any_tree(random);
    let root = draft.activation[draft.activation.len() - 1];
    if random.chance(60) {
        let peak = least_peak(&draft.records, root);
        draft.memory_bound = random.pick(&[peak.saturating_sub(1), peak]);
    }
    let records = &mut draft.records;
    match random.between(0, 11) {
        0 => add_roots(random, records),
        1 => drop_root(random, records, root),
        2 | 3 => add_cycle(random, records),
        4 => {
            add_cycle(random, records);
            add_roots(random, records);
        }
        5 => {
            add_cycle(random, records);
            drop_root(random, records, root);
        }
        _ => {}
    }
    draft.steps().concat()
}

/// A tree of any shape, at times with large subtrees that are siblings.
fn any_tree(random: &mut Random) -> Draft {
    let records = match random.between(0, 19) {
        0..=2 => siblings::wide(random),
        3 => siblings::deep(random),
        _ => return Draft::random(random),
    };
    Draft::of(random, records)
}

/// The least peak of a tree's postorders.
fn least_peak(records: &[Record], root: u16) -> u32 {
    best_postorder(records, root).map_or(0, |order| desk_peak(records, &order).peak)
}

/// Makes roots of some tasks, perhaps of the root alone.
fn add_roots(random: &mut Random, records: &mut [Record]) {
    for _ in 0..random.pick(&[1, 1, 2, 5]) {
        records[random.below(records.len())].parent = 0;
    }
}

/// Lets the root feed any task, perhaps itself.
fn drop_root(random: &mut Random, records: &mut [Record], root: u16) {
    records[index(root)].parent = 1 + random.below(records.len()) as u16;
}

/// Closes a cycle beside the root, unless it picks the root: lets a task feed
/// itself or a task below it.
fn add_cycle(random: &mut Random, records: &mut [Record]) {
    let lowest = random.below(records.len());
    let chain = chain_below_root(records, lowest);
    let Some(&highest) = chain.last() else {
        return;
    };
    let any = chain[random.below(chain.len())];
    let closing = random.pick(&[lowest, any, highest]);
    records[closing].parent = lowest as u16 + 1;
}

/// A task's chain of parents from itself on, without the root.
fn chain_below_root(records: &[Record], task: usize) -> Vec<usize> {
    let parent = |&task: &usize| records[task].parent_index();
    let mut chain: Vec<usize> = std::iter::successors(Some(task), parent).collect();
    chain.pop();
    chain
}
