//! Trees of many shapes.

use super::random::Random;

/// What a tree looks like.
#[derive(Clone, Copy)]
pub enum Shape {
    Random,
    Deep,
    Chain,
    Star,
    Caterpillar,
    Binary,
    Broom,
    /// Stars side by side: so many centers feed the root.
    Stars {
        centers: usize,
        /// So many of a hundred leaves feed the first center, the rest all centers in
        /// turn.
        to_first: u32,
    },
    /// A chain up to the root, with so many leaves hung on it anywhere.
    Spine {
        leaves: usize,
    },
}

impl Shape {
    /// Any of the plain shapes.
    pub fn random(random: &mut Random) -> Shape {
        random.pick(&[
            Shape::Random,
            Shape::Random,
            Shape::Deep,
            Shape::Chain,
            Shape::Star,
            Shape::Caterpillar,
            Shape::Binary,
            Shape::Broom,
        ])
    }

    /// The parents of n tasks that form a tree, the root's being 0.
    pub fn parents(self, random: &mut Random, n: usize) -> Vec<u16> {
        let numbers = numbers(random, n);
        let mut parents = vec![0; n];
        for node in 1..n {
            let parent = self.parent(random, node, n);
            parents[usize::from(numbers[node]) - 1] = numbers[parent];
        }
        parents
    }

    /// The parent of a node of n; node 0 is the root and parents come first.
    pub fn parent(self, random: &mut Random, node: usize, n: usize) -> usize {
        match self {
            Shape::Random => random.below(node),
            Shape::Deep => node - 1 - random.below(node.min(3)),
            Shape::Chain => node - 1,
            Shape::Star => 0,
            Shape::Caterpillar => (node - 1) / 2 * 2,
            Shape::Binary => (node - 1) / 2,
            Shape::Broom => (node - 1).min(n / 2),
            Shape::Stars { centers, .. } if node <= centers => 0,
            Shape::Stars { to_first, .. } if random.chance(to_first) => 1,
            Shape::Stars { centers, .. } => 1 + node % centers,
            Shape::Spine { leaves } if node + leaves < n => node - 1,
            Shape::Spine { leaves } => random.below(n - leaves),
        }
    }
}

/// Which step number each node gets: rising, falling or mixed.
fn numbers(random: &mut Random, n: usize) -> Vec<u16> {
    let mut numbers: Vec<u16> = (1..=n as u16).collect();
    match random.between(0, 3) {
        0 => {}
        1 => numbers.reverse(),
        _ => random.shuffle(&mut numbers),
    }
    numbers
}
