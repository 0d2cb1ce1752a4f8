//! What the proved library writes to a lent list.

use cephlouk::{Plan, Refusal, Wrote};
use compare::fence::{fenced, Number};

/// What is answered in plain numbers by a function that writes to a list, which
/// lies against forbidden pages. The same function with a count or a refusal as
/// its result must say the same, and the plan is left as it is found.
pub fn written<N: Number>(
    plan: &Plan,
    lent: &mut [N],
    in_numbers: impl Fn(&Plan, &mut [N]) -> Wrote,
    as_result: impl Fn(&Plan, &mut [N]) -> Result<usize, Refusal>,
) -> Wrote {
    let words = plan.words().to_vec();
    let wrote = fenced(lent, |list| in_numbers(plan, list));
    let same = match as_result(plan, &mut lent.to_vec()) {
        Ok(count) => Wrote { number: 0, count },
        Err(refusal) => Wrote {
            number: refusal.number(),
            count: 0,
        },
    };
    assert_eq!(same, wrote, "the result says the same");
    assert!(*plan.words() == words[..], "the plan is only read");
    wrote
}
