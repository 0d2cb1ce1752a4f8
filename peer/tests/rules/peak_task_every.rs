//! The peak's task for every small plan: all trees, all orders, and for the desk
//! all lists of parents.

use crate::find_every::{all_lists, all_parents, records, rising_trees, trees, Counts};
use crate::menu::{refused, Menu};
use crate::peak_sums::{peak_and_equals, peak_and_task};
use crate::postorder::{all_orders, ground, stand_before_parents};
use peer::{desk_peak, Answer, Record};

/// Works and outs among which equal sums are common, and so is a peak of 0.
const FEW: [Counts; 4] = [(0, 0), (1, 0), (0, 1), (2, 1)];

/// All works and outs up to 2.
fn many() -> Vec<Counts> {
    let counts = all_lists(2, &[0, 1, 2]);
    counts.iter().map(|pair| (pair[0], pair[1])).collect()
}

/// What the desk must answer: number, peak and the peak's task.
fn wanted(records: &[Record], order: &[u16]) -> (u8, u32, u16) {
    if ground(records.len(), records) == Some(7) {
        return (7, 0, 0);
    }
    if !stand_before_parents(records, order) {
        return (8, 0, 0);
    }
    let (peak, task) = peak_and_task(records, order);
    (0, peak, task)
}

fn check_desk(records: &[Record], order: &[u16]) -> u8 {
    let answer = desk_peak(records, order);
    let got = (answer.number, answer.peak, answer.peak_task);
    assert_eq!(got, wanted(records, order), "{records:?} {order:?}");
    answer.number
}

/// All orders of a tree in which each task stands before its parent.
fn activation_orders(parents: &[u16]) -> Vec<Vec<u16>> {
    let records = records(parents, &vec![(0, 0); parents.len()]);
    let mut orders = all_orders(parents.len() as u16);
    orders.retain(|order| stand_before_parents(&records, order));
    orders
}

/// How many plans were looked at, and how many have several tasks at the peak.
#[derive(Debug, Default, PartialEq)]
struct Looked {
    plans: usize,
    with_ties: usize,
    /// The earliest of them is not the one with the lowest number.
    not_by_number: usize,
}

impl Looked {
    fn note(&mut self, records: &[Record], order: &[u16]) {
        let (_, equals) = peak_and_equals(records, order);
        self.plans += 1;
        self.with_ties += usize::from(equals.len() > 1);
        self.not_by_number += usize::from(equals.iter().min() != equals.first());
    }
}

/// Asks the desk about all trees with all their orders and all counts.
fn look_at_all(trees: &[Vec<u16>], counts: &[Counts]) -> Looked {
    let mut looked = Looked::default();
    for parents in trees {
        let orders = activation_orders(parents);
        for counts in all_lists(parents.len(), counts) {
            let records = records(parents, &counts);
            for order in &orders {
                assert_eq!(check_desk(&records, order), 0);
                looked.note(&records, order);
            }
        }
    }
    looked
}

#[test]
fn up_to_three_steps() {
    let looked = [1, 2, 3].map(|n| look_at_all(&trees(n), &many()));
    let plans = looked.each_ref().map(|looked| looked.plans);
    assert_eq!(plans, [9, 2 * 81, 12 * 729]);
    assert!(looked[2].with_ties > 2000, "{looked:?}");
    assert!(looked[2].not_by_number > 1000, "{looked:?}");
}

#[test]
fn four_steps() {
    let looked = look_at_all(&trees(4), &FEW);
    // A tree with an order is one of the 6 rising trees, numbered in one of 24 ways.
    assert_eq!(looked.plans, 6 * 24 * 256);
    assert!(looked.with_ties > 10_000, "{looked:?}");
    assert!(looked.not_by_number > 5000, "{looked:?}");
}

#[test]
fn five_steps() {
    let looked = look_at_all(&trees(5), &[(0, 1), (2, 0)]);
    assert_eq!(looked.plans, 24 * 120 * 32);
    assert!(looked.with_ties > 20_000, "{looked:?}");
    assert!(looked.not_by_number > 10_000, "{looked:?}");
}

#[test]
fn six_steps_that_feed_later_ones() {
    let looked = look_at_all(&rising_trees(6), &[(0, 1), (2, 0)]);
    // 120 trees, with 2700 orders in all.
    assert_eq!(looked.plans, 2700 * 64);
    assert!(looked.with_ties > 50_000, "{looked:?}");
    assert!(looked.not_by_number > 20_000, "{looked:?}");
}

#[test]
fn every_list_of_parents_in_every_order() {
    let mut seen = [0; 9];
    for parents in (1..=4).flat_map(all_parents) {
        let orders = all_orders(parents.len() as u16);
        for counts in all_lists(parents.len(), &[(0, 0), (1, 2)]) {
            for order in &orders {
                let number = check_desk(&records(&parents, &counts), order);
                seen[usize::from(number)] += 1;
            }
        }
    }
    assert!(
        seen[0] > 2000 && seen[7] > 50_000 && seen[8] > 50_000,
        "{seen:?}"
    );
    assert_eq!(seen.iter().sum::<usize>(), seen[0] + seen[7] + seen[8]);
}

/// What BEGIN answers, of a plan with so many places.
fn begin(memory_bound: u32, menu: &Menu) -> Answer {
    let menu = Menu {
        memory_bound,
        ..menu.clone()
    };
    menu.begun().0
}

/// BEGIN at and above the peak, and below it.
fn check_begin(menu: &Menu) {
    let (peak, task) = peak_and_task(&menu.records, &menu.activation);
    for memory_bound in [peak, peak + 1, u32::MAX] {
        let answer = begin(memory_bound, menu);
        assert_eq!((answer.number, answer.used), (0, 1));
        assert_eq!((answer.peak, answer.peak_task), (peak, task), "{menu:?}");
    }
    if let Some(below) = peak.checked_sub(1) {
        assert_eq!(begin(below, menu), refused(9));
    }
}

#[test]
fn begin_with_every_execution_order() {
    let mut plans = 0;
    for parents in (1..=3).flat_map(trees) {
        let n = parents.len();
        let mut executions = all_orders(n as u16);
        executions.push(vec![]);
        for counts in all_lists(n, &FEW) {
            for activation in activation_orders(&parents) {
                for execution in &executions {
                    check_begin(&Menu {
                        processors: 2,
                        memory_bound: 0,
                        records: records(&parents, &counts),
                        activation: activation.clone(),
                        execution: execution.clone(),
                    });
                    plans += 1;
                }
            }
        }
    }
    assert_eq!(plans, 4 * 2 + 2 * 16 * 3 + 12 * 64 * 7);
}
