//! ACTIVATION, algorithm 1 of RR-8966: a node is activated with all of its own
//! memory, in the activation order. It is what MEMBOOKING is measured beside.

use crate::synthetic::Tree;
use std::cmp::Reverse;
use std::collections::BinaryHeap;

/// The makespan on so many processors within a bound; both orders are the one
/// given.
pub fn makespan(tree: &Tree, order: &[u16], processors: usize, bound: u64) -> u64 {
    let place: Vec<usize> = places(order);
    let mut run = Run {
        tree,
        order,
        bound,
        booked: 0,
        activated: 0,
        unended: children(tree),
        ready: BinaryHeap::new(),
        place,
    };
    let (mut now, mut free) = (0, processors);
    let mut running = BinaryHeap::new();
    loop {
        run.activate();
        while free > 0 {
            let Some(Reverse(at)) = run.ready.pop() else {
                break;
            };
            let node = usize::from(order[at]) - 1;
            running.push(Reverse((now + u64::from(tree.times[node]), at)));
            free -= 1;
        }
        let Some(Reverse((end, at))) = running.pop() else {
            assert_eq!(run.activated, order.len(), "the whole tree is processed");
            return now;
        };
        now = end;
        free += 1;
        run.end(usize::from(order[at]) - 1);
    }
}

struct Run<'a> {
    tree: &'a Tree,
    order: &'a [u16],
    bound: u64,
    booked: u64,
    /// How many nodes of the order are activated.
    activated: usize,
    /// The children of each node that have not ended.
    unended: Vec<usize>,
    /// The places in the order of activated nodes whose children have all ended.
    ready: BinaryHeap<Reverse<usize>>,
    place: Vec<usize>,
}

impl Run<'_> {
    /// Activates the first nodes of the order, as far as the memory goes.
    fn activate(&mut self) {
        while let Some(&step) = self.order.get(self.activated) {
            let node = usize::from(step) - 1;
            let own = self.own(node);
            if self.booked + own > self.bound {
                return;
            }
            self.booked += own;
            if self.unended[node] == 0 {
                self.ready.push(Reverse(self.activated));
            }
            self.activated += 1;
        }
    }

    /// A node has ended: its size and the outs of its children are free.
    fn end(&mut self, node: usize) {
        let record = self.tree.records[node];
        self.booked -= u64::from(record.work) + fed(self.tree, node);
        let Some(parent) = usize::from(record.parent).checked_sub(1) else {
            return;
        };
        self.unended[parent] -= 1;
        if self.unended[parent] == 0 && self.place[parent] < self.activated {
            self.ready.push(Reverse(self.place[parent]));
        }
    }

    /// What is booked for a node.
    fn own(&self, node: usize) -> u64 {
        let record = self.tree.records[node];
        u64::from(record.work) + u64::from(record.out)
    }
}

/// The outs of the children of a node.
pub fn fed(tree: &Tree, node: usize) -> u64 {
    let is_child = |record: &&cephlouk::TaskRecord| usize::from(record.parent) == node + 1;
    let outs = tree.records.iter().filter(is_child);
    outs.map(|record| u64::from(record.out)).sum()
}

fn children(tree: &Tree) -> Vec<usize> {
    let mut children = vec![0; tree.records.len()];
    for record in &tree.records {
        if let Some(parent) = usize::from(record.parent).checked_sub(1) {
            children[parent] += 1;
        }
    }
    children
}

/// The place of each node in the order.
fn places(order: &[u16]) -> Vec<usize> {
    let mut places = vec![0; order.len()];
    for (place, &step) in order.iter().enumerate() {
        places[usize::from(step) - 1] = place;
    }
    places
}

#[cfg(test)]
mod tests {
    use super::*;
    use cephlouk::TaskRecord;

    /// Two leaves of work 5 and out 1 feed a root of out 1, as in plan A.
    fn salads() -> Tree {
        let record = |parent, work, out| TaskRecord { parent, work, out };
        Tree {
            records: vec![record(3, 5, 1), record(3, 5, 1), record(0, 0, 1)],
            times: vec![10, 20, 5],
            height: 2,
        }
    }

    #[test]
    fn by_hand() {
        // Both at once need 12, one after the other 7.
        assert_eq!(makespan(&salads(), &[1, 2, 3], 2, 12), 25);
        assert_eq!(makespan(&salads(), &[1, 2, 3], 2, 11), 35);
        assert_eq!(makespan(&salads(), &[1, 2, 3], 1, 12), 35);
        assert_eq!(makespan(&salads(), &[1, 2, 3], 2, 7), 35);
    }
}
