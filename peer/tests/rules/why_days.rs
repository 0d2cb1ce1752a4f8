//! Why a task isn't starting, at every moment of days small and large. What is
//! true of it is found anew from the accepted commands, their starts, the count
//! of waiting tasks and the booked trays of each task.

use crate::watch::{follow, Watch};
use peer::generate::stream;
use peer::{Phase, Plan, Reason};
use std::collections::BTreeMap;

/// In a plan up to this size, each moment looks at every task.
const SMALL: usize = 160;

/// In a larger one it looks at about so many, and the next at others.
const SHARE: usize = 16;

/// The tasks that wait, which end the activation order.
fn waiting<'a>(watch: &'a Watch, plan: &Plan) -> &'a [u16] {
    let [waiting, ..] = plan.standing();
    &watch.activation[watch.activation.len() - waiting as usize..]
}

/// By task, its booked trays and those of all tasks below it.
fn sums(watch: &Watch, plan: &Plan) -> Vec<u32> {
    let numbers = 1..=watch.records.len() as u16;
    let mut sums: Vec<u32> = numbers.map(|task| plan.booked_by(task)).collect();
    for &task in &watch.activation {
        let index = usize::from(task) - 1;
        if let Some(parent) = usize::from(watch.records[index].parent).checked_sub(1) {
            sums[parent] += sums[index];
        }
    }
    sums
}

/// The trays that the first waiting task lacks: B + missing - M.
fn lack(watch: &Watch, plan: &Plan, first: u16) -> u32 {
    let index = usize::from(first) - 1;
    let missing = watch.needs[index].saturating_sub(sums(watch, plan)[index]);
    let wanted = u64::from(plan.booked()) + u64::from(missing);
    assert!(wanted > watch.memory_bound.into());
    (wanted - u64::from(watch.memory_bound)) as u32
}

/// By task, whether it waits, with the first that does and what that lacks.
fn not_booked(watch: &Watch, plan: &Plan) -> Vec<Option<Reason>> {
    let mut reasons = vec![None; watch.records.len()];
    let waiting = waiting(watch, plan);
    if let Some(&first) = waiting.first() {
        let lack = lack(watch, plan, first);
        for &task in waiting {
            reasons[usize::from(task) - 1] = Some(Reason::NotBooked { first, lack });
        }
    }
    reasons
}

/// By task, the lowest-numbered child that has not ended.
fn unfed(watch: &Watch) -> Vec<Option<Reason>> {
    let mut reasons = vec![None; watch.records.len()];
    for child in (0..watch.records.len()).rev() {
        let parent = usize::from(watch.records[child].parent);
        if parent != 0 && !watch.ended[child] {
            reasons[parent - 1] = Some(Reason::Unfed(child as u16 + 1));
        }
    }
    reasons
}

/// Each task that is looked at now, with the first that is true of it.
fn first_true(watch: &Watch, plan: &Plan) -> Vec<(u16, Reason)> {
    let (not_booked, unfed) = (not_booked(watch, plan), unfed(watch));
    let all_taken = watch.running() == watch.processors;
    let first_true = |index: usize| {
        let truths = [
            watch.ended[index].then_some(Reason::Ended),
            watch.is_running(index).then_some(Reason::Running),
            not_booked[index],
            unfed[index],
            all_taken.then_some(Reason::NoProcessor),
        ];
        let first = truths.into_iter().flatten().next();
        (index as u16 + 1, first.expect("one of the five is true"))
    };
    looked_at(watch, plan).map(first_true).collect()
}

/// The indexes of the tasks that are looked at now.
fn looked_at(watch: &Watch, plan: &Plan) -> impl Iterator<Item = usize> {
    let n = watch.records.len();
    let stride = if n <= SMALL { 1 } else { n / SHARE };
    let [.., ended] = plan.standing();
    (ended as usize % stride..n).step_by(stride)
}

/// How often each kind of reason was seen.
type Seen = BTreeMap<&'static str, usize>;

fn kind(task: u16, reason: Reason) -> &'static str {
    match reason {
        Reason::Refused(number) => panic!("{task} is refused {number}"),
        Reason::Ended => "ended",
        Reason::Running => "running",
        Reason::NotBooked { first, .. } if first == task => "first waiting",
        Reason::NotBooked { .. } => "behind the first waiting",
        Reason::Unfed(_) => "unfed",
        Reason::NoProcessor => "no processor",
    }
}

/// How many there are of those.
const KINDS: usize = 6;

fn check_seen(seen: &Seen, least: usize) {
    assert_eq!(seen.len(), KINDS, "{seen:?}");
    assert!(seen.values().all(|&count| count >= least), "{seen:?}");
}

fn check_running(watch: &Watch, plan: &Plan, seen: &mut Seen) {
    for task in [0, watch.records.len() as u16 + 1, u16::MAX] {
        assert_eq!(plan.why(task), Reason::Refused(4));
    }
    for (task, reason) in first_true(watch, plan) {
        assert_eq!(plan.why(task), reason, "{task}");
        *seen.entry(kind(task, reason)).or_default() += 1;
    }
}

fn check_not_running(watch: &Watch, plan: &Plan) {
    let n = watch.records.len() as u16;
    for task in [0, 1, n, n + 1, u16::MAX] {
        assert_eq!(plan.why(task), Reason::Refused(3));
    }
}

#[test]
fn the_first_that_is_true() {
    let (mut small, mut large) = (Seen::new(), Seen::new());
    for stream in (3000..3450).map(stream) {
        follow(&stream, |watch, plan| match plan.phase() {
            Phase::Running if watch.records.len() <= SMALL => {
                check_running(watch, plan, &mut small);
            }
            Phase::Running => check_running(watch, plan, &mut large),
            _ => check_not_running(watch, plan),
        });
    }
    check_seen(&small, 500);
    check_seen(&large, 50);
}
