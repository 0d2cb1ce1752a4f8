//! Where a desk goes astray: wrong ways to name the peak's task, each shown by a
//! few plans with ties, and by a few generated streams.

use crate::menu::Menu;
use crate::peak_sums::{need, peak_and_equals, peak_and_task};
use crate::peak_ties::tied;
use crate::watch::follow;
use peer::generate::{stream, Random};

/// A way to name the task that sets the peak of a plan.
type Way = fn(&Menu) -> u16;

/// The tasks that have the peak, in the activation order.
fn equals(menu: &Menu) -> Vec<u16> {
    peak_and_equals(&menu.records, &menu.activation).1
}

/// Where the earliest of them stands in the activation order.
fn place(menu: &Menu) -> usize {
    let task = equals(menu)[0];
    let mut order = menu.activation.iter();
    order.position(|&entry| entry == task).unwrap()
}

/// The first task with the largest figure.
fn first_largest(order: &[u16], figure: impl Fn(u16) -> u32) -> u16 {
    let largest = order.iter().map(|&task| figure(task)).max();
    let mut tasks = order.iter().copied();
    tasks.find(|&task| Some(figure(task)) == largest).unwrap()
}

/// Wrong ways, and what is wrong with each.
const ASTRAY: [(&str, Way); 14] = [
    ("the last of equal ones", |menu| {
        *equals(menu).last().unwrap()
    }),
    ("the second of equal ones", |menu| {
        let equals = equals(menu);
        *equals.get(1).unwrap_or(&equals[0])
    }),
    ("the lowest number", |menu| {
        *equals(menu).iter().min().unwrap()
    }),
    ("the highest number", |menu| {
        *equals(menu).iter().max().unwrap()
    }),
    ("the earliest in the execution order", |menu| {
        let equals = equals(menu);
        let mut order = menu.execution.iter().copied();
        order
            .find(|task| equals.contains(task))
            .unwrap_or(equals[0])
    }),
    ("its place in the order", |menu| place(menu) as u16 + 1),
    ("its place in the order, from 0", |menu| place(menu) as u16),
    ("its number from 0", |menu| equals(menu)[0] - 1),
    ("the one ahead of it", |menu| {
        menu.activation[place(menu).saturating_sub(1)]
    }),
    ("the one behind it", |menu| {
        let last = menu.activation.len() - 1;
        menu.activation[last.min(place(menu) + 1)]
    }),
    ("the largest need", |menu| {
        first_largest(&menu.activation, |task| need(&menu.records, task))
    }),
    ("the largest need of equal ones", |menu| {
        first_largest(&equals(menu), |task| need(&menu.records, task))
    }),
    ("the first of the order", |menu| menu.activation[0]),
    ("the root", |menu| *menu.activation.last().unwrap()),
];

/// Whether some of these plans has another task than a wrong way names.
fn is_shown(menus: &[Menu], wrong: Way) -> bool {
    let task = |menu: &Menu| peak_and_task(&menu.records, &menu.activation).1;
    menus.iter().any(|menu| wrong(menu) != task(menu))
}

#[test]
fn each_wrong_way_is_shown_by_ties() {
    for seed in 0..10 {
        let mut random = Random::new(seed);
        let menus: Vec<_> = (0..50).map(|_| tied(&mut random, 9).menu).collect();
        for (mistake, wrong) in ASTRAY {
            assert!(is_shown(&menus, wrong), "{mistake}");
        }
    }
}

/// Plans of generated streams that BEGIN accepts at the end.
fn menus(seeds: std::ops::Range<u64>) -> Vec<Menu> {
    let menu = |seed| follow(&stream(seed), |_, _| {}).0.menu();
    let mut menus: Vec<Menu> = seeds.filter_map(menu).collect();
    menus.retain(|menu| menu.records.len() <= 40 && menu.begun().0.number == 0);
    menus
}

#[test]
fn each_wrong_way_is_shown_by_streams() {
    for seeds in [0..100, 100..200, 200..300] {
        let menus = menus(seeds);
        for (mistake, wrong) in ASTRAY {
            assert!(is_shown(&menus, wrong), "{mistake}");
        }
        // 0 for a peak of 0.
        let is_zero = |menu: &Menu| peak_and_task(&menu.records, &menu.activation).0 == 0;
        assert!(menus.iter().any(is_zero));
    }
}
