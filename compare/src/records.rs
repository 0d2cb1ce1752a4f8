//! The tasks of trees to be timed.

use peer::generate::Random;
use peer::Record;

/// The largest work and out, unless a tree has works of its own.
const COUNT: u32 = 20;

/// Any work or out.
pub fn any_count(random: &mut Random) -> u16 {
    random.between(0, COUNT) as u16
}

/// The records of the n nodes of a tree, the root's first: each has the parent and
/// the work that are told of its node, counted from 0, and any out.
pub fn records(
    random: &mut Random,
    n: usize,
    parent: impl Fn(&mut Random, usize) -> usize,
    work: impl Fn(&mut Random, usize) -> u16,
) -> Vec<Record> {
    let record = |node| Record {
        parent: match node {
            0 => 0,
            _ => parent(random, node) as u16 + 1,
        },
        work: work(random, node),
        out: any_count(random),
    };
    (0..n).map(record).collect()
}
