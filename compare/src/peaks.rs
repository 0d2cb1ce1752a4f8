//! The kinds of peaks, by the steps that set them. Each of them must come.

use crate::kinds::{Kind, OfKinds};
use crate::lists::Lists;
use peer::Record;

/// The peak of an activation order, and where it is set.
pub struct Peak {
    trays: u64,
    /// How many tasks the order has.
    length: usize,
    /// The places of the order at which the cold room holds as much.
    set_at: Vec<usize>,
    /// The tasks there.
    tasks: Vec<u16>,
}

impl OfKinds for Peak {
    const KINDS: &'static [Kind<Peak>] = &[
        ("of one step", |peak| peak.length == 1),
        ("of 0 trays and several steps", |peak| {
            peak.trays == 0 && peak.length > 1
        }),
        ("set by the first alone", |peak| peak.is_set_at(0)),
        ("set by the last alone", |peak| {
            peak.is_set_at(peak.length - 1)
        }),
        ("set by one in between alone", |peak| {
            (1..peak.length - 1).any(|place| peak.is_set_at(place))
        }),
        (
            "set by several, the earliest not the lowest number",
            |peak| peak.tasks.iter().min() != peak.tasks.first(),
        ),
        (
            "set by several, the earliest not the highest number",
            |peak| peak.tasks.iter().max() != peak.tasks.first(),
        ),
        (
            "set by several, the first of the order not among them",
            |peak| peak.set_at.len() > 1 && peak.set_at[0] > 0,
        ),
        ("named by more than a byte", |peak| {
            peak.tasks[0] > u8::MAX.into()
        }),
    ];
}

impl Peak {
    /// Of an order in which each task stands before its parent.
    pub fn new(given: &Lists) -> Peak {
        let sums = sums(given);
        let trays = sums.iter().copied().max().expect("a task");
        let length = sums.len();
        let set_at: Vec<usize> = (0..length).filter(|&place| sums[place] == trays).collect();
        Peak {
            trays,
            length,
            tasks: set_at
                .iter()
                .map(|&place| given.activation[place])
                .collect(),
            set_at,
        }
    }

    /// Whether it is set at one place alone, of several.
    fn is_set_at(&self, place: usize) -> bool {
        self.length > 1 && self.set_at == [place]
    }
}

/// What the cold room holds while each task of an order runs by itself.
pub fn sums(given: &Lists) -> Vec<u64> {
    let mut outs_of_children = vec![0; given.records.len() + 1];
    let mut held = 0;
    let sum = |&task: &u16| {
        let task = usize::from(task);
        let Record { parent, work, out } = given.records[task - 1];
        let kept = held + u64::from(out);
        outs_of_children[usize::from(parent)] += u64::from(out);
        held = kept - outs_of_children[task];
        kept + u64::from(work)
    };
    given.activation.iter().map(sum).collect()
}

#[cfg(test)]
mod tests {
    use super::*;
    use crate::lists::Desk;
    use crate::tool::{compare, Tool};
    use crate::tool_kinds::of_tool;

    /// Among so many cases there are several of each kind.
    const CASES: u64 = 10_000;

    #[test]
    fn every_kind_of_peak_comes_to_the_desk() {
        let peaks = of_tool::<Desk, Peak>(CASES, |_, lent, answer| {
            (answer[0] == 0).then(|| Peak::new(lent))
        });
        assert!(!peaks.lack_a_kind(), "{peaks}");
    }

    /// The earliest, by the sums of this file.
    #[test]
    fn the_peer_names_the_earliest() {
        let by_sums = |commands: &[u8], lent: &mut Lists| {
            let number = Desk::answer(commands, lent)[0];
            match number {
                0 => {
                    let peak = Peak::new(lent);
                    vec![number, peak.trays, peak.tasks[0].into()]
                }
                _ => vec![number, 0, 0],
            }
        };
        compare::<Desk>(by_sums, CASES).expect("no difference");
    }
}
