//! Orders found for every small plan, beside all orders that finish each subtree
//! before turning to its neighbour.

use crate::menu::{finish, found, give};
use crate::postorder::{all_orders, ground, is_asked_for, is_postorder, peak};
use peer::generate::encode;
use peer::{Command, Phase, Plan, Record};

/// Work and out of a step.
pub type Counts = (u16, u16);

/// All lists of n entries, each one of the choices.
pub fn all_lists<T: Copy>(n: usize, choices: &[T]) -> Vec<Vec<T>> {
    let mut lists = vec![vec![]];
    for _ in 0..n {
        let longer = |list: &Vec<T>, &choice: &T| [&list[..], &[choice]].concat();
        lists = lists
            .iter()
            .flat_map(|list| choices.iter().map(move |choice| longer(list, choice)))
            .collect();
    }
    lists
}

/// All lists of n parents, whatever they are.
pub fn all_parents(n: u16) -> Vec<Vec<u16>> {
    let parents: Vec<u16> = (0..=n).collect();
    all_lists(n.into(), &parents)
}

pub fn records(parents: &[u16], counts: &[Counts]) -> Vec<Record> {
    let steps = parents.iter().zip(counts);
    steps
        .map(|(&parent, &(work, out))| Record { parent, work, out })
        .collect()
}

/// The parents of all trees of n tasks.
pub fn trees(n: u16) -> Vec<Vec<u16>> {
    let mut trees = all_parents(n);
    trees.retain(|parents| {
        let records = records(parents, &vec![(0, 0); n.into()]);
        ground(n.into(), &records).is_none()
    });
    trees
}

/// All orders of a tree that finish each subtree before turning to its neighbour.
fn all_postorders(parents: &[u16]) -> Vec<Vec<u16>> {
    let records = records(parents, &vec![(0, 0); parents.len()]);
    let mut orders = all_orders(parents.len() as u16);
    orders.retain(|order| is_postorder(&records, order));
    orders
}

/// Gives a plan, whose day must not run, a next one.
fn open(plan: &mut Plan, memory_bound: u32, records: &[Record]) {
    let opening = Command::Plan {
        tasks: records.len() as u16,
        processors: 1,
        memory_bound,
    };
    let mut starts = [0; Plan::STARTS];
    let steps = records.iter().copied().map(Command::Step);
    for command in [opening].into_iter().chain(steps) {
        let answer = plan.command(&encode(command), 0, &mut starts);
        assert_eq!(answer.number, 0);
    }
}

/// Checks the order of one plan; answers it and its peak.
fn check(plan: &mut Plan, records: &[Record], postorders: &[Vec<u16>]) -> (Vec<u16>, u32) {
    open(plan, 0, records);
    let order = found(plan, records.len()).unwrap();
    assert!(is_asked_for(records, &order), "{records:?}: {order:?}");
    let least = postorders.iter().map(|order| peak(records, order)).min();
    assert_eq!(Some(peak(records, &order)), least, "{records:?}: {order:?}");
    (order, least.unwrap())
}

/// Checks the orders of all trees with all counts; answers how many plans these are.
fn check_all(trees: &[Vec<u16>], counts: &[Counts]) -> usize {
    let mut plan = Plan::new();
    let mut plans = 0;
    for parents in trees {
        let postorders = all_postorders(parents);
        for counts in all_lists(parents.len(), counts) {
            check(&mut plan, &records(parents, &counts), &postorders);
            plans += 1;
        }
    }
    plans
}

#[test]
fn trees_and_their_postorders_are_all_there() {
    // n to the power of n - 1.
    let counts = (1..=5).map(|n| trees(n).len());
    assert!(counts.eq([1, 2, 9, 64, 625]));
    let postorders = |parents: &[u16]| all_postorders(parents).len();
    assert_eq!(postorders(&[0]), 1);
    assert_eq!(postorders(&[2, 3, 0]), 1);
    assert_eq!(postorders(&[0, 1, 1, 1, 1]), 24);
    // Two children, one of which has three.
    assert_eq!(postorders(&[4, 4, 4, 6, 6, 0]), 12);
    assert_eq!(all_postorders(&[3, 3, 0]), [[2, 1, 3], [1, 2, 3]]);
}

#[test]
fn up_to_three_steps() {
    let counts = all_lists(2, &[0, 1, 3]);
    let counts: Vec<_> = counts.iter().map(|pair| (pair[0], pair[1])).collect();
    let plans = (1..=3).map(|n| check_all(&trees(n), &counts));
    assert!(plans.eq([9, 2 * 81, 9 * 729]));
}

#[test]
fn four_steps() {
    let counts = [(0, 3), (2, 0), (2, 2), (5, 1)];
    assert_eq!(check_all(&trees(4), &counts), 64 * 256);
}

#[test]
fn five_steps() {
    let counts = [(0, 3), (4, 1)];
    assert_eq!(check_all(&trees(5), &counts), 625 * 32);
}

/// Trees in which each parent has a higher number than its children.
pub fn rising_trees(n: u16) -> Vec<Vec<u16>> {
    let mut trees = vec![vec![0]];
    for task in (1..n).rev() {
        let longer = |tree: &Vec<u16>, parent| [&[parent], &tree[..]].concat();
        trees = trees
            .iter()
            .flat_map(|tree| (task + 1..=n).map(move |parent| longer(tree, parent)))
            .collect();
    }
    trees
}

#[test]
fn five_and_six_steps_that_feed_later_ones() {
    let counts = [(0, 1), (2, 3), (5, 2)];
    assert_eq!(check_all(&rising_trees(5), &counts), 24 * 243);
    let counts = [(0, 2), (3, 1)];
    assert_eq!(check_all(&rising_trees(6), &counts), 120 * 64);
}

/// Gives a plan the order found as its activation order, with so many places, and
/// answers what its BEGIN is refused with.
fn begin(plan: &mut Plan, memory_bound: u32, records: &[Record], order: &[u16]) -> u8 {
    open(plan, memory_bound, records);
    for &task in order {
        let (answer, _) = give(plan, &encode(Command::Activation(task)));
        assert_eq!(answer.number, 0);
    }
    let (answer, starts) = give(plan, &encode(Command::Begin));
    if answer.number == 0 {
        assert_eq!(finish(plan, starts), order);
        give(plan, &encode(Command::Fetch));
        assert_eq!(plan.phase(), Phase::Over);
    }
    answer.number
}

#[test]
fn begin_is_refused_only_if_no_postorder_fits() {
    let counts = [(0, 2), (2, 0), (3, 1)];
    let mut plan = Plan::new();
    for parents in (1..=4).flat_map(trees) {
        let postorders = all_postorders(&parents);
        for counts in all_lists(parents.len(), &counts).iter().step_by(5) {
            let records = records(&parents, counts);
            let (order, least) = check(&mut plan, &records, &postorders);
            assert_eq!(begin(&mut plan, least, &records, &order), 0);
            assert_eq!(begin(&mut plan, least - 1, &records, &order), 9);
        }
    }
}

#[test]
fn every_list_of_parents() {
    let mut plan = Plan::new();
    let mut seen = [0; 13];
    for parents in (1..=5).flat_map(all_parents) {
        let n = parents.len();
        let records = records(&parents, &vec![(1, 1); n]);
        open(&mut plan, 0, &records);
        let number = ground(n, &records).unwrap_or(0);
        let order = found(&plan, n);
        assert_eq!(order.err().unwrap_or(0), number, "{parents:?}");
        let one_short = if number == 0 { 11 } else { number };
        assert_eq!(found(&plan, n - 1), Err(one_short), "{parents:?}");
        seen[usize::from(number)] += 1;
    }
    // All lists less those with one root; those less the trees.
    let (lists, with_one_root, trees) = (8476, 3413, 701);
    assert_eq!(seen[0], trees);
    assert_eq!(seen[7], lists - with_one_root);
    assert_eq!(seen[12], with_one_root - trees);
}
