//! Valid activation orders and free execution orders.

use super::random::Random;
use crate::record::{index, Record};

/// An activation order: each task stands before its parent.
pub fn activation(random: &mut Random, records: &[Record]) -> Vec<u16> {
    if random.chance(40) {
        postorder(random, records)
    } else {
        hopping(random, records)
    }
}

/// Finishes each subtree before turning to its neighbour: the reverse of a
/// walk that goes from each task on to its children.
fn postorder(random: &mut Random, records: &[Record]) -> Vec<u16> {
    let mut children = vec![Vec::new(); records.len() + 1];
    for (record, task) in records.iter().zip(1u16..) {
        children[usize::from(record.parent)].push(task);
    }
    let mut order = Vec::new();
    let mut open = children[0].clone();
    while let Some(task) = open.pop() {
        order.push(task);
        let below = &mut children[usize::from(task)];
        random.shuffle(below);
        open.append(below);
    }
    order.reverse();
    order
}

/// Hops between subtrees: takes any task whose children all stand already,
/// the longest known, the latest known or any of them.
fn hopping(random: &mut Random, records: &[Record]) -> Vec<u16> {
    let mut missing_children = vec![0; records.len()];
    for parent in records.iter().filter_map(Record::parent_index) {
        missing_children[parent] += 1;
    }
    let numbers = 1..=records.len() as u16;
    let mut free: Vec<u16> = numbers
        .filter(|&task| missing_children[index(task)] == 0)
        .collect();
    random.shuffle(&mut free);
    let choice = random.between(0, 2);
    let mut order = Vec::new();
    while !free.is_empty() {
        let place = match choice {
            0 => 0,
            1 => free.len() - 1,
            _ => random.below(free.len()),
        };
        let task = free.remove(place);
        order.push(task);
        if let Some(parent) = records[index(task)].parent_index() {
            missing_children[parent] -= 1;
            if missing_children[parent] == 0 {
                free.push(records[index(task)].parent);
            }
        }
    }
    order
}

/// An execution order: any order at all.
pub(crate) fn execution(random: &mut Random, activation: &[u16]) -> Vec<u16> {
    let mut order = activation.to_vec();
    match random.between(0, 5) {
        0 => {}
        1 => order.reverse(),
        2 => order.sort_unstable(),
        _ => random.shuffle(&mut order),
    }
    order
}
