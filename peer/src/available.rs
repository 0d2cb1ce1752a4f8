//! The available tasks: activated, with all their children finished.

use crate::plan::Plan;

const WORD: usize = u64::BITS as usize;
const WORDS: usize = Plan::TASKS / WORD;

/// A set of places in the execution order. Its smallest place is found by two
/// looks: which word has a bit, and which bit of that word.
#[derive(Clone)]
pub(crate) struct Available {
    words: [u64; WORDS],
    filled: u64,
}

impl Available {
    pub fn new() -> Available {
        Available {
            words: [0; WORDS],
            filled: 0,
        }
    }

    pub fn insert(&mut self, place: usize) {
        self.words[place / WORD] |= 1 << (place % WORD);
        self.filled |= 1 << (place / WORD);
    }

    /// Takes out the place earliest in the execution order.
    pub fn take_first(&mut self) -> Option<usize> {
        if self.filled == 0 {
            return None;
        }
        let word = self.filled.trailing_zeros() as usize;
        let bit = self.words[word].trailing_zeros() as usize;
        self.words[word] &= self.words[word] - 1;
        if self.words[word] == 0 {
            self.filled &= self.filled - 1;
        }
        Some(word * WORD + bit)
    }
}

#[cfg(test)]
mod tests {
    use super::*;

    #[test]
    fn takes_the_earliest_first() {
        let mut available = Available::new();
        for place in [1023, 0, 64, 63, 512, 5] {
            available.insert(place);
        }
        let taken: Vec<usize> = std::iter::from_fn(|| available.take_first()).collect();
        assert_eq!(taken, [0, 5, 63, 64, 512, 1023]);
        assert_eq!(available.take_first(), None);
    }
}
