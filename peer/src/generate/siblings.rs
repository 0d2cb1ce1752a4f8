//! The steps of trees in which siblings have large subtrees, so that an order finder
//! has to weigh these by their peaks.

use super::counts::Counts;
use super::random::Random;
use super::tree::Shape;
use crate::plan::Plan;
use crate::record::Record;

/// Wide subtrees side by side.
pub(crate) fn wide(random: &mut Random) -> Vec<Record> {
    let stars = Shape::Stars {
        centers: random.pick(&[2, 3, 8]),
        to_first: random.pick(&[0, 0, 20, 30, 40, 90]),
    };
    let n = match random.between(0, 7) {
        0..=2 => random.between(20, 80),
        3..=4 => random.between(81, 300),
        5 => random.between(301, 1023),
        _ => Plan::TASKS as u32,
    };
    records(random, stars, n as usize)
}

/// Subtrees far down on a long chain, each beside a leaf.
pub(crate) fn deep(random: &mut Random) -> Vec<Record> {
    let spine = Shape::Spine {
        leaves: random.pick(&[3, 10, 30]),
    };
    let n = random.between(600, Plan::TASKS as u32);
    records(random, spine, n as usize)
}

/// The steps of a tree, with counts such that any task may set a peak.
fn records(random: &mut Random, shape: Shape, n: usize) -> Vec<Record> {
    let parents = shape.parents(random, n);
    let [leaf, inner] = counts(random);
    let mut is_inner = vec![false; n + 1];
    for &parent in &parents {
        is_inner[usize::from(parent)] = true;
    }
    parents
        .into_iter()
        .zip(&is_inner[1..])
        .map(|(parent, &is_inner)| {
            let [work, out] = if is_inner { inner } else { leaf };
            Record {
                parent,
                work: work.count(random),
                out: out.count(random),
            }
        })
        .collect()
}

/// How large work and out are, of the leaves and of the inner tasks.
fn counts(random: &mut Random) -> [[Counts; 2]; 2] {
    let large = random.pick(&[Counts::Large, Counts::Extreme, Counts::Most]);
    let few = Counts::UpTo(random.pick(&[1, 4, 20]));
    match random.between(0, 3) {
        // The largest peaks.
        0 => [[large; 2]; 2],
        // Peaks that a late leaf may set.
        1 => [[large, few], [few; 2]],
        // Large peaks that may differ by little.
        2 => [[few, large], [few; 2]],
        _ => {
            let mut any = || Counts::random(random);
            [[any(), any()], [any(), any()]]
        }
    }
}
