//! The kinds of cases that come to a tool.

use crate::kinds::{Kinds, OfKinds};
use crate::tool::{compare, Tool};
use std::cell::RefCell;

/// Those of so many cases, by the peer. A case is made of the commands, of what was
/// lent, as it is left, and of the answer.
pub fn of_tool<T: Tool, Case: OfKinds>(
    cases: u64,
    case: impl Fn(&[u8], &T::Lent, &[u64]) -> Option<Case>,
) -> Kinds<Case> {
    let kinds = RefCell::new(Kinds::default());
    let noting = |commands: &[u8], lent: &mut T::Lent| {
        let answer = T::answer(commands, lent);
        if let Some(case) = case(commands, lent, &answer) {
            kinds.borrow_mut().add(&case);
        }
        answer
    };
    compare::<T>(noting, cases).expect("no difference");
    kinds.into_inner()
}
