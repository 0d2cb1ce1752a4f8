//! The paper's sentence on the peak, word by word, and request 07's on its step.

use peer::Record;

/// What the cold room holds while each task of an activation order runs, in that
/// order.
pub fn sums(records: &[Record], order: &[u16]) -> Vec<u32> {
    let turns = turns(records, order);
    let out_of = |task: u16| u32::from(records[usize::from(task) - 1].out);
    let held = |now: usize| {
        // "The outs of steps already ended whose parent has neither run nor is
        // running."
        let ended = order[..now].iter().copied();
        let outs = ended.filter(|&task| {
            let parent = records[usize::from(task) - 1].parent;
            turns[usize::from(parent)] > now
        });
        need(records, order[now]) + outs.map(out_of).sum::<u32>()
    };
    (0..order.len()).map(held).collect()
}

/// When each task runs; what the root would feed never does.
fn turns(records: &[Record], order: &[u16]) -> Vec<usize> {
    let mut turns = vec![usize::MAX; records.len() + 1];
    for (turn, &task) in order.iter().enumerate() {
        turns[usize::from(task)] = turn;
    }
    turns
}

/// "Need of a step = the outs of its children + its work + its out."
pub fn need(records: &[Record], task: u16) -> u32 {
    let children = records.iter().filter(|record| record.parent == task);
    let outs: u32 = children.map(|child| u32::from(child.out)).sum();
    let Record { work, out, .. } = records[usize::from(task) - 1];
    outs + u32::from(work) + u32::from(out)
}

/// The peak, and all tasks that have it, in the activation order.
pub fn peak_and_equals(records: &[Record], order: &[u16]) -> (u32, Vec<u16>) {
    let sums = sums(records, order);
    let peak = sums.iter().copied().max().unwrap();
    let at_peak = order.iter().zip(sums).filter(|&(_, sum)| sum == peak);
    (peak, at_peak.map(|(&task, _)| task).collect())
}

/// The peak, and "the earliest in the activation order where several are equal".
pub fn peak_and_task(records: &[Record], order: &[u16]) -> (u32, u16) {
    let (peak, equals) = peak_and_equals(records, order);
    (peak, equals[0])
}

#[test]
fn the_sums_of_the_paper_s_plans() {
    use crate::menu::{plan_a, plan_c};
    let [a, c] = [plan_a(), plan_c()];
    // While step 2 runs, the out of step 1 is held.
    assert_eq!(sums(&a.records, &a.activation), [6, 7, 3]);
    assert_eq!(sums(&c.records, &c.activation), [3, 5, 6, 5]);
    assert_eq!(peak_and_equals(&a.records, &a.activation), (7, vec![2]));
    assert_eq!(peak_and_equals(&c.records, &c.activation), (6, vec![3]));
}
