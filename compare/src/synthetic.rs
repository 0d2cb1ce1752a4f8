//! The synthetic trees of section 7.1 of RR-8966.

use cephlouk::TaskRecord;
use peer::generate::Random;

/// A tree whose nodes are tasks; the root is the last of them.
pub struct Tree {
    pub records: Vec<TaskRecord>,
    /// The processing times.
    pub times: Vec<u32>,
    /// The nodes on the longest way to the root.
    pub height: usize,
}

/// The children of a node that has some, in hundredths: the report's table, whose
/// rows add up to 99.
const DEGREES: [(usize, u32); 5] = [(1, 58), (2, 17), (3, 8), (4, 8), (5, 8)];

/// Edge weights are exponential, times this, within these bounds.
const SCALE: f64 = 100.0;
const LEAST: f64 = 10.0;
const MOST: f64 = 10_000.0;

/// The processing size is this part of the edge weight.
const SIZE_PART: f64 = 0.1;

/// In so many of a hundred cases any leaf grows next, else the newest one. The
/// report does not say which; so its mean height of 63 comes out.
const ANY_LEAF: u32 = 19;

pub fn tree(random: &mut Random, nodes: usize) -> Tree {
    let parents = parents(random, nodes);
    let mut records = Vec::with_capacity(nodes);
    let mut times = Vec::with_capacity(nodes);
    // Node 0 is the root: the last task comes first.
    for node in (0..nodes).rev() {
        let weight = weight(random);
        records.push(TaskRecord {
            parent: parents[node].map_or(0, |parent| (nodes - parent) as u16),
            work: (SIZE_PART * weight).round() as u16,
            out: weight.round() as u16,
        });
        times.push(weight.round() as u32);
    }
    Tree {
        records,
        times,
        height: height(&parents),
    }
}

/// The parent of each node; those of lower number are nearer to the root.
fn parents(random: &mut Random, nodes: usize) -> Vec<Option<usize>> {
    let mut parents = vec![None];
    let mut leaves = vec![0];
    while parents.len() < nodes {
        let place = match random.chance(ANY_LEAF) {
            true => random.below(leaves.len()),
            false => leaves.len() - 1,
        };
        let node = leaves.remove(place);
        for _ in 0..degree(random).min(nodes - parents.len()) {
            leaves.push(parents.len());
            parents.push(Some(node));
        }
    }
    parents
}

fn degree(random: &mut Random) -> usize {
    let sum = DEGREES.iter().map(|(_, part)| part).sum::<u32>();
    let mut drawn = random.between(1, sum);
    for (degree, part) in DEGREES {
        if drawn <= part {
            return degree;
        }
        drawn -= part;
    }
    unreachable!("the parts add up to the sum")
}

fn weight(random: &mut Random) -> f64 {
    let uniform = f64::from(random.between(1, u32::MAX)) / f64::from(u32::MAX);
    (-uniform.ln() * SCALE).clamp(LEAST, MOST)
}

fn height(parents: &[Option<usize>]) -> usize {
    let mut heights = vec![1; parents.len()];
    for node in 1..parents.len() {
        heights[node] = parents[node].map_or(1, |parent| heights[parent] + 1);
    }
    heights.into_iter().max().unwrap_or(0)
}

#[cfg(test)]
mod tests {
    use super::*;

    #[test]
    fn trees_are_as_the_report_has_them() {
        let random = &mut Random::new(1);
        let trees: Vec<Tree> = (0..50).map(|_| tree(random, 1000)).collect();
        let height = trees.iter().map(|tree| tree.height).sum::<usize>() as f64 / 50.0;
        assert!(
            (58.0..68.0).contains(&height),
            "the report: 63, here {height}"
        );
        for tree in trees {
            let roots = tree.records.iter().filter(|record| record.parent == 0);
            assert_eq!((roots.count(), tree.records[999].parent), (1, 0));
            let children = |step| {
                tree.records
                    .iter()
                    .filter(|record| record.parent == step)
                    .count()
            };
            let degrees: Vec<usize> = (1..=1000).map(children).collect();
            assert!(degrees.iter().all(|&degree| degree <= 5));
            let inner = degrees.iter().filter(|&&degree| degree > 0).count() as f64;
            let single = degrees.iter().filter(|&&degree| degree == 1).count() as f64;
            assert!((0.5..0.68).contains(&(single / inner)), "about 0.58");
            assert!(tree
                .records
                .iter()
                .all(|record| (10..=10_000).contains(&record.out)));
        }
    }
}
