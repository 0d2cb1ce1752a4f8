//! Colours of branches, which colour-blind people can tell apart: those of Okabe
//! and Ito.

use crate::sheet::Sheet;

/// A colour, and the one of letters on it.
#[derive(Clone, Copy, Debug, PartialEq, Eq)]
pub struct Colour {
    pub fill: &'static str,
    pub letters: &'static str,
    /// The nearest of a terminal's 256.
    pub terminal: u8,
}

const fn colour(fill: &'static str, letters: &'static str, terminal: u8) -> Colour {
    Colour {
        fill,
        letters,
        terminal,
    }
}

const BRANCHES: [Colour; 6] = [
    colour("#0072B2", "#fff", 25),
    colour("#D55E00", "#fff", 166),
    colour("#009E73", "#fff", 36),
    colour("#CC79A7", "#222", 175),
    colour("#E69F00", "#222", 178),
    colour("#56B4E9", "#222", 74),
];

/// Of the last step, which all branches feed.
pub const ROOT: Colour = colour("#444444", "#fff", 240);

/// The colours of a plan's steps: each branch that feeds the last step has one.
pub struct Colours {
    /// The branch of each step, by its number less 1; none of the last step.
    branches: Vec<Option<usize>>,
    pub count: usize,
}

impl Colours {
    /// Parents come behind their children in the activation order.
    pub fn of(sheet: &Sheet) -> Colours {
        let mut branches = vec![None; sheet.steps.len()];
        let mut count = 0;
        for &step in sheet.activation.iter().rev() {
            let place = usize::from(step) - 1;
            let Some(parent) = usize::from(sheet.steps[place].record.parent).checked_sub(1) else {
                continue;
            };
            branches[place] = match branches[parent] {
                Some(branch) => Some(branch),
                None => {
                    count += 1;
                    Some(count - 1)
                }
            };
        }
        // The branch that is booked first has the first colour.
        for branch in branches.iter_mut().flatten() {
            *branch = count - 1 - *branch;
        }
        Colours { branches, count }
    }

    /// The branch of a step; of the last step it is the one behind all.
    pub fn branch(&self, step: u16) -> usize {
        self.branches[usize::from(step) - 1].unwrap_or(self.count)
    }

    pub fn of_branch(&self, branch: usize) -> Colour {
        if branch >= self.count {
            ROOT
        } else {
            BRANCHES[branch % BRANCHES.len()]
        }
    }

    pub fn step(&self, step: u16) -> Colour {
        self.of_branch(self.branch(step))
    }
}
