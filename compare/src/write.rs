//! A plan written out by the proved library.

use crate::written::written;
use cephlouk::{Phase, Plan};
use compare::tool::led;

/// The number and how many bytes were written. Reading them restores the plan.
pub fn plan(commands: &[u8], lent: &mut Vec<u8>) -> Vec<u64> {
    let plan = led(Plan::new(), commands);
    let wrote = written(&plan, lent, Plan::write_with, Plan::write);
    if wrote.number == 0 {
        assert_restored(plan, &lent[..wrote.count]);
    }
    vec![wrote.number.into(), wrote.count as u64]
}

/// A plan that reads some bytes writes the same, and begins its day as the one
/// that they were written of, where that has not begun.
fn assert_restored(mut plan: Plan, bytes: &[u8]) {
    let mut restored = led(Plan::new(), bytes);
    let mut again = vec![0; bytes.len()];
    let written = restored.write(&mut again);
    assert_eq!(written, Ok(bytes.len()), "a plan read back is whole");
    assert_eq!(again, bytes, "and is the same");
    if plan.phase() == Phase::Orders {
        let begin = [0x05];
        assert_eq!(restored.command(&begin), plan.command(&begin));
        assert_eq!(restored.standing(), plan.standing());
    }
}
