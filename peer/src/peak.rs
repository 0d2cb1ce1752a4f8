//! Needs, and the peak of an activation order with the task that sets it.

use crate::plan::Plan;
use crate::record::{index, Record};

/// The need of each task: the outs of its children + its work + its out.
/// Entries past the last record are 0.
pub fn needs(records: &[Record]) -> [u32; Plan::TASKS] {
    let mut needs = [0; Plan::TASKS];
    for (task, record) in records.iter().enumerate() {
        needs[task] += u32::from(record.work) + u32::from(record.out);
        if let Some(parent) = record.parent_index() {
            needs[parent] += u32::from(record.out);
        }
    }
    needs
}

/// The peak: the most that is held while the tasks run one at a time in an
/// activation order in which each stands before its parent. With it comes the
/// task that sets it: the one that runs then, the earliest in the order where
/// several are equal.
pub(crate) fn peak(records: &[Record], needs: &[u32], activation: &[u16]) -> (u32, u16) {
    // Task 0 stands for none.
    let (mut peak, mut peak_task) = (0, 0);
    // Outs of finished tasks whose parent has not run.
    let mut held = 0;
    for &task in activation {
        let record = records[index(task)];
        let (work, out) = (u32::from(record.work), u32::from(record.out));
        let need = needs[index(task)];
        held -= need - work - out;
        // The first sets a peak of 0, too; an equal later one sets none.
        if peak_task == 0 || held + need > peak {
            (peak, peak_task) = (held + need, task);
        }
        held += out;
    }
    (peak, peak_task)
}
