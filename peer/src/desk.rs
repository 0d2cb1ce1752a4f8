//! The planners' desk: the peak of the caller's own records, and its task.

use crate::answer::DeskAnswer;
use crate::order::Order;
use crate::peak::{needs, peak};
use crate::plan::Plan;
use crate::record::Record;
use crate::refusal::Refusal;
use crate::tree::check_tree;

/// The peak of the desk's activation list over its step records, and the task
/// that sets it.
pub fn desk_peak(records: &[Record], activation: &[u16]) -> DeskAnswer {
    match checked_peak(records, activation) {
        Ok((peak, peak_task)) => DeskAnswer {
            number: 0,
            peak,
            peak_task,
        },
        Err(refusal) => DeskAnswer {
            number: refusal.number(),
            ..DeskAnswer::default()
        },
    }
}

/// The desk's checks: 4, 5, 7 and 8.
fn checked_peak(records: &[Record], activation: &[u16]) -> Result<(u32, u16), Refusal> {
    check_limits(records, activation)?;
    let mut order = Order::new();
    for &task in activation {
        if order.holds(task) {
            return Err(Refusal::Repeated);
        }
        order.push(task);
    }
    check_tree(records, &order)?;
    Ok(peak(records, &needs(records), activation))
}

/// Ground 4: unequal lengths, length 0 or above 1,024, or a number out of
/// limits in either list.
fn check_limits(records: &[Record], activation: &[u16]) -> Result<(), Refusal> {
    let tasks = records.len();
    let lengths = tasks == activation.len() && (1..=Plan::TASKS).contains(&tasks);
    let parents = records
        .iter()
        .all(|record| usize::from(record.parent) <= tasks);
    let entries = activation
        .iter()
        .all(|&task| (1..=tasks).contains(&usize::from(task)));
    if lengths && parents && entries {
        Ok(())
    } else {
        Err(Refusal::OutsideLimits)
    }
}
