//! The best postorder: it finishes each subtree before turning to its neighbour,
//! and no order of that kind has a lower peak.

use crate::record::{index, Record};
use std::cmp::Reverse;

/// The postorder that takes the children of each task by falling (subtree peak
/// less out), equal ones by lower number: the optimal order of source document
/// 002. None if some task's chain of parents never reaches the root, which is the
/// only task with parent 0.
pub(crate) fn best_postorder(records: &[Record], root: u16) -> Option<Vec<u16>> {
    let mut children = children(records);
    let tasks = downward(&children, root);
    if tasks.len() < records.len() {
        return None;
    }
    // The peak of each subtree, known once those of all below it are.
    let mut peaks = vec![0; records.len()];
    for task in tasks.into_iter().rev().map(index) {
        let peak_less_out = |child| peaks[index(child)] - out(records, child);
        children[task].sort_by_key(|&child| (Reverse(peak_less_out(child)), child));
        peaks[task] = subtree_peak(records, &peaks, task, &children[task]);
    }
    let mut order = downward(&children, root);
    order.reverse();
    Some(order)
}

/// The children of each task, by rising number.
fn children(records: &[Record]) -> Vec<Vec<u16>> {
    let mut children = vec![Vec::new(); records.len()];
    for (record, task) in records.iter().zip(1..) {
        if let Some(parent) = record.parent_index() {
            children[parent].push(task);
        }
    }
    children
}

/// The walk from the root down, each task ahead of its children and the last of
/// these first: the reverse of a postorder. It meets the tasks whose chain of
/// parents reaches the root, each once.
fn downward(children: &[Vec<u16>], root: u16) -> Vec<u16> {
    let mut walk = Vec::new();
    let mut open = vec![root];
    while let Some(task) = open.pop() {
        walk.push(task);
        open.extend(&children[index(task)]);
    }
    walk
}

/// The peak of a task's subtree with its children taken in this order. Document
/// 002: max{P_1, f_1 + P_2, f_1 + f_2 + P_3, ..., the sum of all f_i + n_r + f_r}.
fn subtree_peak(records: &[Record], peaks: &[u32], task: usize, children: &[u16]) -> u32 {
    let mut peak = 0;
    // The outs of the children taken so far.
    let mut held = 0;
    for &child in children {
        peak = peak.max(held + peaks[index(child)]);
        held += out(records, child);
    }
    let Record { work, out, .. } = records[task];
    peak.max(held + u32::from(work) + u32::from(out))
}

fn out(records: &[Record], task: u16) -> u32 {
    records[index(task)].out.into()
}
