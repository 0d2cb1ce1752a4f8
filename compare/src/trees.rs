//! Trees to be timed, to find an order for: of every shape, stars whose children
//! are sorted already, the other way round, or all equal, and stars side by side.

use crate::clock::{medians, Calls};
use crate::records::{any_count, records};
use crate::table::{print_rows, Extremes, Pair, Row};
use crate::tool::led;
use peer::generate::{encode, Random, Shape};
use peer::{Command, Plan};
use std::hint::black_box;

/// How many stars stand side by side.
pub const STARS: usize = 8;

const SIDE_BY_SIDE: Shape = Shape::Stars {
    centers: STARS,
    to_first: 0,
};

/// The works of the nodes of a tree, of which there are n. The work of a child
/// without children of its own is its peak less its out.
type Works = fn(random: &mut Random, node: usize, n: usize) -> u16;

const TREES: [(&str, Shape, Works); 11] = [
    ("chain", Shape::Chain, any),
    ("star", Shape::Star, any),
    ("star, works rise", Shape::Star, rising),
    ("star, works fall", Shape::Star, falling),
    ("star, works are equal", Shape::Star, equal),
    ("stars side by side", SIDE_BY_SIDE, any),
    ("random", Shape::Random, any),
    ("binary", Shape::Binary, any),
    ("deep", Shape::Deep, any),
    ("caterpillar", Shape::Caterpillar, any),
    ("broom", Shape::Broom, any),
];

fn any(random: &mut Random, _: usize, _: usize) -> u16 {
    any_count(random)
}

fn rising(_: &mut Random, node: usize, _: usize) -> u16 {
    node as u16
}

fn falling(_: &mut Random, node: usize, n: usize) -> u16 {
    (n - node) as u16
}

fn equal(_: &mut Random, _: usize, _: usize) -> u16 {
    1
}

/// An order found for each tree: the nanoseconds of a task.
pub fn print_orders() -> Extremes {
    let rows = TREES.into_iter().map(|(name, shape, works)| {
        Row::new(name.into(), |n| {
            order_found(&steps(shape, works, n), n).map(|time| time / n as f64)
        })
    });
    let title = "An activation order found, divided by n";
    print_rows(title, [("tree", "---")], rows)
}

/// An order found for the n tasks that some commands give, the same by both.
fn order_found(commands: &[u8], n: usize) -> Pair {
    let proved = led(cephlouk::Plan::new(), commands);
    let peer = led(Plan::new(), commands);
    let [mut list, mut list_of_peer] = [[0; Plan::TASKS]; 2];
    assert_eq!(proved.find_order(&mut list), Ok(n), "an order found");
    let by_peer = peer.find_order(&mut list_of_peer);
    assert_eq!(
        (by_peer.count, list_of_peer),
        (n, list),
        "the same by the peer"
    );
    medians([
        &mut Calls(|| {
            let _ = black_box(proved.find_order(black_box(&mut list)));
        }),
        &mut Calls(|| {
            black_box(peer.find_order(black_box(&mut list_of_peer)));
        }),
    ])
}

/// PLAN and the tasks of a tree, the root first.
fn steps(shape: Shape, works: Works, n: usize) -> Vec<u8> {
    let plan = Command::Plan {
        tasks: n as u16,
        processors: 1,
        memory_bound: 0,
    };
    let records = records(
        &mut Random::new(n as u64),
        n,
        |random, node| shape.parent(random, node, n),
        |random, node| works(random, node, n),
    );
    let steps = records.into_iter().map(Command::Step);
    [plan].into_iter().chain(steps).flat_map(encode).collect()
}
