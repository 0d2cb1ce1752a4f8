//! Starting.

use crate::figures::Standing;
use crate::plan::Plan;
use crate::record::index;

impl Plan {
    /// While a processor is free, starts the available task that is earliest
    /// in the execution order. Writes the starts to the front of the caller's
    /// list and tells how many they are.
    pub(crate) fn start(&mut self, starts: &mut [u16]) -> usize {
        let mut count = 0;
        while self.running < self.processors {
            let Some(place) = self.available.take_first() else {
                break;
            };
            let task = self.execution.entries()[place];
            let record = self.records[index(task)];
            self.figures[index(task)].standing = Standing::Running;
            self.running += 1;
            // The outs of its children are in use already, and are part of
            // its need from now on.
            self.in_use += u32::from(record.work) + u32::from(record.out);
            starts[count] = task;
            count += 1;
        }
        count
    }
}
