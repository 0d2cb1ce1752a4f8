//! New bounds for the cold room while a day runs.

use super::random::Random;
use crate::plan::Plan;

/// Any bound, mostly at or around one that decides: the peak, B, the bound in
/// force, and the least that would book the first waiting task.
pub(crate) fn any(random: &mut Random, plan: &Plan) -> u32 {
    let decides = random.pick(&[
        plan.peak,
        plan.booked,
        plan.memory_bound,
        books_first_waiting(plan),
    ]);
    // A large bound books all tasks, and then none waits: few come in a day.
    if random.below(4 + plan.tasks) == 0 {
        return large(random, decides);
    }
    match random.between(0, 9) {
        0..=2 => decides,
        3..=5 => decides.saturating_sub(1),
        6 => decides.saturating_add(1),
        7 => random.between(0, decides),
        8 => random.between(plan.peak.min(decides), decides),
        _ => random.between(decides, decides.saturating_add(decides / 2)),
    }
}

/// A bound anywhere above another, or the largest.
fn large(random: &mut Random, other: u32) -> u32 {
    let any = random.between(other, u32::MAX);
    random.pick(&[any, u32::MAX])
}

/// A bound that is taken.
pub(crate) fn taken(random: &mut Random, plan: &Plan) -> u32 {
    any(random, plan).max(least(plan))
}

/// A bound that is refused: often the peak or right below it, or right below the
/// least that is taken; 0 where every bound is taken.
pub(crate) fn refused(random: &mut Random, plan: &Plan) -> u32 {
    let most = least(plan).saturating_sub(1);
    let any = random.between(0, most);
    let choices = [0, any, plan.peak.saturating_sub(1), plan.peak, most, most];
    random.pick(&choices).min(most)
}

/// The least bound that is taken.
fn least(plan: &Plan) -> u32 {
    plan.peak.max(plan.booked)
}

/// The least bound with which the first waiting task would be booked; B where
/// no task waits.
fn books_first_waiting(plan: &Plan) -> u32 {
    let first = plan.activation.entries().get(plan.activated);
    plan.booked + first.map_or(0, |&task| plan.missing(task))
}
