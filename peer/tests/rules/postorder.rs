//! What request 06 says of an order, sentence by sentence: whether it finishes
//! each subtree before turning to its neighbour, whether it takes children as
//! asked, and its peak.

use peer::Record;

/// Where a task stands in lists by task, and in an order.
pub fn index(task: u16) -> usize {
    usize::from(task) - 1
}

/// A task's chain of parents, from itself on; cut where it goes round.
fn chain(records: &[Record], task: u16) -> Vec<u16> {
    let mut chain = vec![task];
    let mut next = records[index(task)].parent;
    while next != 0 && chain.len() <= records.len() {
        chain.push(next);
        next = records[index(next)].parent;
    }
    chain
}

/// The ground on which no order is found for these steps of n: 3, 7 or 12.
pub fn ground(n: usize, records: &[Record]) -> Option<u8> {
    if n == 0 || records.len() < n {
        return Some(3);
    }
    if records.iter().filter(|record| record.parent == 0).count() != 1 {
        return Some(7);
    }
    let goes_round = |task| chain(records, task).len() > n;
    (1..=n as u16).any(goes_round).then_some(12)
}

/// Whether an order has each task once.
fn has_each_once(records: &[Record], order: &[u16]) -> bool {
    let mut tasks = order.to_vec();
    tasks.sort_unstable();
    tasks.into_iter().eq(1..=records.len() as u16)
}

/// Whether each task stands before its parent in an order of all tasks.
pub fn stand_before_parents(records: &[Record], order: &[u16]) -> bool {
    let mut stands = vec![false; records.len() + 1];
    order.iter().all(|&task| {
        stands[usize::from(task)] = true;
        !stands[usize::from(records[index(task)].parent)]
    })
}

/// For each task the part of an order from the first task of its subtree up to
/// itself, in an order in which each stands before its parent; none if some part
/// has a task of another subtree.
fn blocks<'a>(records: &[Record], order: &'a [u16]) -> Option<Vec<&'a [u16]>> {
    let n = records.len();
    let (mut size, mut first) = (vec![0; n], vec![n; n]);
    for (place, &task) in order.iter().enumerate() {
        for above in chain(records, task).into_iter().map(index) {
            size[above] += 1;
            first[above] = first[above].min(place);
        }
    }
    let mut blocks = vec![&order[..0]; n];
    for (place, task) in order.iter().copied().map(index).enumerate() {
        if place + 1 - first[task] != size[task] {
            return None;
        }
        blocks[task] = &order[first[task]..=place];
    }
    Some(blocks)
}

/// Whether an order has each task of a tree once, each before its parent, and
/// finishes each subtree before turning to its neighbour.
pub fn is_postorder(records: &[Record], order: &[u16]) -> bool {
    has_each_once(records, order)
        && stand_before_parents(records, order)
        && blocks(records, order).is_some()
}

/// The peak of an order, or of a subtree's part of it.
pub fn peak(records: &[Record], order: &[u16]) -> u32 {
    // The outs that a task is fed, and all that no task has used yet.
    let mut fed = vec![0; records.len() + 1];
    let (mut held, mut peak) = (0, 0);
    for &task in order {
        let Record { parent, work, out } = records[index(task)];
        peak = peak.max(held + u32::from(work) + u32::from(out));
        held = held + u32::from(out) - fed[usize::from(task)];
        fed[usize::from(parent)] += u32::from(out);
    }
    peak
}

/// Whether an order is the one that is asked for: a postorder that takes children
/// by falling (subtree peak less out), equal ones by lower number.
pub fn is_asked_for(records: &[Record], order: &[u16]) -> bool {
    if !is_postorder(records, order) {
        return false;
    }
    let peaks: Vec<u32> = blocks(records, order)
        .into_iter()
        .flatten()
        .map(|block| peak(records, block))
        .collect();
    let key = |task: u16| peaks[index(task)] - u32::from(records[index(task)].out);
    // The child of each task that was taken last.
    let mut last = vec![None; records.len() + 1];
    order.iter().all(|&child| {
        let parent = usize::from(records[index(child)].parent);
        let before: Option<u16> = last[parent].replace(child);
        before.is_none_or(|before| {
            key(before) > key(child) || key(before) == key(child) && before < child
        })
    })
}

/// All orders of n tasks, of that kind or not.
pub fn all_orders(n: u16) -> Vec<Vec<u16>> {
    let mut orders = vec![vec![]];
    for task in 1..=n {
        let shorter = std::mem::take(&mut orders);
        for order in shorter {
            for place in 0..=order.len() {
                let mut order = order.clone();
                order.insert(place, task);
                orders.push(order);
            }
        }
    }
    orders
}
