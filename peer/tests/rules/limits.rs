//! The limits of n and p, and the largest plans.

use crate::menu::{finish, give, Menu};
use peer::generate::encode;
use peer::{Command, Plan};

fn open(tasks: u16, processors: u8) -> u8 {
    let command = Command::Plan {
        tasks,
        processors,
        memory_bound: 0,
    };
    give(&mut Plan::new(), &encode(command)).0.number
}

#[test]
fn n_and_p() {
    assert_eq!((open(1024, 1), open(1025, 1)), (0, 4));
    assert_eq!((open(1, 64), open(1, 65)), (0, 4));
    assert_eq!((open(0, 1), open(1, 0), open(65_535, 255)), (4, 4, 4));
}

/// Runs a day to its end: its peak, the peak's task, and how many tasks started.
fn run(menu: &Menu) -> (u32, u16, usize) {
    let (answer, starts, mut plan) = menu.begun();
    assert_eq!(answer.number, 0);
    let started = finish(&mut plan, starts).len();
    (answer.peak, answer.peak_task, started)
}

#[test]
fn a_star_of_the_largest_counts() {
    let mut records = vec![(1024, 65_535, 65_535); 1023];
    records.push((0, 65_535, 65_535));
    let peak = 1023 * 65_535 + 2 * 65_535;
    for memory_bound in [peak, u32::MAX] {
        let menu = Menu::new(64, memory_bound, &records);
        assert_eq!(run(&menu), (peak, 1024, 1024));
    }
    let (answer, starts, plan) = Menu::new(64, u32::MAX, &records).begun();
    assert_eq!((answer.starts, starts), (64, (1..=64).collect()));
    assert_eq!(plan.in_use(), 64 * 2 * 65_535);
    assert_eq!(Menu::new(64, peak - 1, &records).begun().0.number, 9);
}

#[test]
fn a_chain_of_the_largest_counts() {
    let records: Vec<_> = (1..=1024)
        .map(|task| ((task + 1) % 1025, 65_535, 65_535))
        .collect();
    // The first task is fed nothing; from the second on all are equal.
    let peak = 3 * 65_535;
    assert_eq!(run(&Menu::new(64, peak, &records)), (peak, 2, 1024));
}
