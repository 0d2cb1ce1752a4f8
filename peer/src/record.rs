//! A step record.

/// What is given for one task: its parent, its work and its out.
#[derive(Clone, Copy, Debug, Default, PartialEq, Eq)]
pub struct Record {
    /// The number of the task it feeds; 0 for the root.
    pub parent: u16,
    /// Memory units for the execution alone.
    pub work: u16,
    /// Memory units of the output.
    pub out: u16,
}

impl Record {
    /// The index of the parent in the list of records; none for the root.
    pub(crate) fn parent_index(&self) -> Option<usize> {
        match self.parent {
            0 => None,
            number => Some(index(number)),
        }
    }
}

/// Tasks are numbered from 1; lists of them are indexed from 0.
pub(crate) fn index(number: u16) -> usize {
    usize::from(number) - 1
}
