//! Why tasks are not starting, by the proved library.

use cephlouk::{Plan, Refusal};
use compare::reasons::{numbers, ASKED};
use compare::tool::led;
use peer::Reason;

/// The plain numbers of each reason. The plan is left as it is found.
pub fn reasons(commands: &[u8], lent: &mut [u16; ASKED]) -> Vec<u64> {
    let plan = led(Plan::new(), commands);
    let words = plan.words().to_vec();
    let told = lent.iter().flat_map(|&task| numbers(told(plan.why(task))));
    let told = told.collect();
    assert!(*plan.words() == words[..], "the plan is only read");
    told
}

/// As the peer has it.
fn told(reason: Result<cephlouk::Reason, Refusal>) -> Reason {
    match reason {
        Err(refusal) => Reason::Refused(refusal.number()),
        Ok(cephlouk::Reason::Ended) => Reason::Ended,
        Ok(cephlouk::Reason::Running) => Reason::Running,
        Ok(cephlouk::Reason::NotBooked { first, lack }) => Reason::NotBooked { first, lack },
        Ok(cephlouk::Reason::Unfed(child)) => Reason::Unfed(child),
        Ok(cephlouk::Reason::NoProcessor) => Reason::NoProcessor,
        Ok(other) => unreachable!("the peer has no {other:?}"),
    }
}
