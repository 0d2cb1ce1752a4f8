//! An activation order found by the proved library.

use crate::written::written;
use cephlouk::Plan;
use compare::orders::begun;
use compare::tool::led;

/// The number, how many entries were written, and BEGIN's number, its peak and
/// the peak's task with that order. A count that the list has no room for leaves
/// no order.
pub fn order(commands: &[u8], lent: &mut Vec<u16>) -> Vec<u64> {
    let plan = led(Plan::new(), commands);
    let wrote = written(&plan, lent, Plan::find_order_with, Plan::find_order);
    let order = lent.get(..wrote.count).unwrap_or(&[]);
    let [begin, peak, by] = begun(Plan::new(), commands, order);
    vec![wrote.number.into(), wrote.count as u64, begin, peak, by]
}
