//! Kinds of cases. Each of them must come.

use std::fmt::{Display, Formatter, Result};

/// A kind, and whether a case is of it.
pub type Kind<Case> = (&'static str, fn(&Case) -> bool);

/// A case that may be of some kinds.
pub trait OfKinds: Sized + 'static {
    const KINDS: &'static [Kind<Self>];

    /// So many cases of each kind must come, at least.
    const LEAST: u64 = 1;
}

/// How many cases were of which kind.
pub struct Kinds<Case> {
    counts: Vec<(Kind<Case>, u64)>,
}

impl<Case: OfKinds> Default for Kinds<Case> {
    fn default() -> Kinds<Case> {
        Kinds {
            counts: Case::KINDS.iter().map(|&kind| (kind, 0)).collect(),
        }
    }
}

impl<Case: OfKinds> Kinds<Case> {
    /// Counts a case.
    pub fn add(&mut self, case: &Case) {
        for ((_, is_such), count) in &mut self.counts {
            *count += u64::from(is_such(case));
        }
    }

    /// Whether too few cases of some kind came.
    pub fn lack_a_kind(&self) -> bool {
        self.counts.iter().any(|&(_, count)| count < Case::LEAST)
    }
}

impl<Case> Display for Kinds<Case> {
    fn fmt(&self, to: &mut Formatter) -> Result {
        let kinds = self.counts.iter();
        let told: Vec<String> = kinds
            .map(|((name, _), count)| format!("{count} {name}"))
            .collect();
        write!(to, "{}", told.join("; "))
    }
}

#[cfg(test)]
mod tests {
    use super::*;

    impl OfKinds for u32 {
        const KINDS: &'static [Kind<u32>] = &[
            ("even", |number| number.is_multiple_of(2)),
            ("small", |&number| number < 10),
        ];

        const LEAST: u64 = 2;
    }

    #[test]
    fn a_kind_that_comes_too_seldom_is_told() {
        let mut kinds = Kinds::default();
        for number in [2, 10, 12] {
            kinds.add(&number);
            assert!(kinds.lack_a_kind(), "{kinds}");
        }
        kinds.add(&3);
        assert!(!kinds.lack_a_kind(), "{kinds}");
        assert_eq!(kinds.to_string(), "3 even; 2 small");
    }
}
