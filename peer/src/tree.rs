//! What BEGIN and the desk both ask of the tree, grounds 7 and 8; and the root,
//! which the order finder asks for too.

use crate::order::Order;
use crate::record::Record;
use crate::refusal::Refusal;

/// Refuses with 7 unless exactly one task has parent 0, then with 8 unless
/// each task stands before its parent in the activation order.
pub(crate) fn check_tree(records: &[Record], activation: &Order) -> Result<(), Refusal> {
    one_root(records)?;
    let before_parent = |(record, task): (&Record, u16)| {
        record.parent == 0 || activation.place(task) < activation.place(record.parent)
    };
    if records.iter().zip(1..).all(before_parent) {
        Ok(())
    } else {
        Err(Refusal::ParentFirst)
    }
}

/// The task with parent 0; refuses with 7 unless there is exactly one.
pub(crate) fn one_root(records: &[Record]) -> Result<u16, Refusal> {
    let mut roots = (1..)
        .zip(records)
        .filter(|(_, record)| record.parent == 0)
        .map(|(task, _)| task);
    match (roots.next(), roots.next()) {
        (Some(root), None) => Ok(root),
        _ => Err(Refusal::NotOneRoot),
    }
}
