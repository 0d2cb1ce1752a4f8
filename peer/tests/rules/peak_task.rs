//! The task that sets the peak: cases worked out by hand.

use crate::menu::{done, fetch, finish, give, plan_a, plan_c, Menu};
use crate::peak_sums::sums;
use crate::printer::printed;
use peer::desk_peak;

/// The peak and its task, as BEGIN, the desk and the begin line all have them,
/// with just enough places and with more.
fn answered(menu: &Menu) -> (u32, u16) {
    let desk = desk_peak(&menu.records, &menu.activation);
    assert_eq!(desk.number, 0);
    for memory_bound in [desk.peak, desk.peak + 1, u32::MAX] {
        let menu = Menu {
            memory_bound,
            ..menu.clone()
        };
        let (answer, ..) = menu.begun();
        assert_eq!(answer.number, 0);
        assert_eq!((answer.peak, answer.peak_task), (desk.peak, desk.peak_task));
        let line = printed(&[menu.commands().concat(), vec![0x05]].concat());
        let front = format!("begin peak={} by={} booked=", desk.peak, desk.peak_task);
        assert!(line.starts_with(&front), "{line}");
    }
    (desk.peak, desk.peak_task)
}

/// The same steps in another activation order.
fn in_order(menu: &Menu, activation: &[u16]) -> Menu {
    Menu {
        activation: activation.to_vec(),
        ..menu.clone()
    }
}

/// So many tasks and a root, in the order of their numbers, that hold these trays
/// one after another; none leaves an out.
fn holding(sums: &[u16]) -> Menu {
    let (root, n) = (sums.len() - 1, sums.len() as u16);
    let mut records: Vec<_> = sums.iter().map(|&work| (n, work, 0)).collect();
    records[root].0 = 0;
    Menu::new(2, 0, &records)
}

#[test]
fn the_paper_s_plans() {
    assert_eq!(answered(&plan_a()), (7, 2));
    assert_eq!(answered(&plan_c()), (6, 3));
    let without_04 = Menu {
        execution: vec![],
        ..plan_a()
    };
    assert_eq!(answered(&without_04), (7, 2));
}

#[test]
fn it_is_a_step_number_and_no_place_in_the_order() {
    // Whichever of the two runs second holds the out of the other.
    assert_eq!(answered(&in_order(&plan_a(), &[2, 1, 3])), (7, 1));
    // Sums 3, 4, 6, 5.
    assert_eq!(answered(&in_order(&plan_c(), &[2, 1, 3, 4])), (6, 3));
    let records = [(0, 1, 0), (1, 9, 0), (1, 2, 0), (1, 3, 0)];
    let menu = Menu::new(1, 0, &records);
    assert_eq!(answered(&in_order(&menu, &[4, 3, 2, 1])), (9, 2));
    assert_eq!(answered(&in_order(&menu, &[2, 4, 3, 1])), (9, 2));
}

#[test]
fn the_first_the_last_or_one_in_between() {
    assert_eq!(answered(&holding(&[5, 1, 1, 1])), (5, 1));
    assert_eq!(answered(&holding(&[1, 5, 1, 1])), (5, 2));
    assert_eq!(answered(&holding(&[1, 1, 5, 1])), (5, 3));
    assert_eq!(answered(&holding(&[1, 1, 1, 5])), (5, 4));
}

#[test]
fn what_others_left_counts() {
    // Step 1 needs the most, 9; while step 3 runs 4 + 1 and its own 5 are held.
    let records = [(4, 5, 4), (4, 1, 1), (4, 5, 0), (0, 0, 0)];
    let menu = Menu::new(1, 0, &records);
    assert_eq!(sums(&menu.records, &menu.activation), [9, 6, 10, 5]);
    assert_eq!(answered(&menu), (10, 3));
    // Run first, step 3 holds its need alone: 5, then 9, 6 and 5.
    assert_eq!(answered(&in_order(&menu, &[3, 1, 2, 4])), (9, 1));
}

#[test]
fn outs_are_held_until_the_parent_runs() {
    // The out of step 1 is gone with step 2: 5, 6, 6, 4, 3.
    let records = [(2, 1, 4), (5, 0, 2), (4, 3, 1), (5, 0, 1), (0, 0, 0)];
    let menu = Menu::new(1, 0, &records);
    assert_eq!(sums(&menu.records, &menu.activation), [5, 6, 6, 4, 3]);
    assert_eq!(answered(&menu), (6, 2));
    // It is not if step 3 comes in between: 5, 8, 7, 4, 3.
    assert_eq!(answered(&in_order(&menu, &[1, 3, 2, 4, 5])), (8, 3));
    // The other subtree first: 4, 2, 6, 7, 3.
    assert_eq!(answered(&in_order(&menu, &[3, 4, 1, 2, 5])), (7, 2));
}

#[test]
fn of_equal_ones_the_earliest() {
    assert_eq!(answered(&holding(&[5, 5, 1, 1])), (5, 1));
    assert_eq!(answered(&holding(&[1, 5, 5, 1])), (5, 2));
    assert_eq!(answered(&holding(&[1, 1, 5, 5])), (5, 3));
    assert_eq!(answered(&holding(&[5, 1, 1, 5])), (5, 1));
    assert_eq!(answered(&holding(&[1, 5, 4, 5])), (5, 2));
    assert_eq!(answered(&holding(&[5, 7, 5, 7])), (7, 2));
    // Equal ones below the peak set nothing.
    assert_eq!(answered(&holding(&[3, 3, 4, 4])), (4, 3));
    assert_eq!(answered(&holding(&[4, 4, 4, 5])), (5, 4));
    assert_eq!(answered(&holding(&[5, 4, 4, 4])), (5, 1));
}

#[test]
fn the_earliest_by_the_order_and_not_by_number() {
    let menu = holding(&[6, 2, 6, 6, 0]);
    for (activation, task) in [
        ([1, 2, 3, 4, 5], 1),
        ([4, 3, 2, 1, 5], 4),
        ([2, 3, 1, 4, 5], 3),
        ([2, 4, 3, 1, 5], 4),
        ([3, 1, 4, 2, 5], 3),
    ] {
        assert_eq!(answered(&in_order(&menu, &activation)), (6, task));
    }
    // The root has number 1 and is last in each order.
    let root_first = Menu::new(1, 0, &[(0, 6, 0), (1, 6, 0), (1, 6, 0)]);
    assert_eq!(answered(&in_order(&root_first, &[3, 2, 1])), (6, 3));
    assert_eq!(answered(&in_order(&root_first, &[2, 3, 1])), (6, 2));
}

#[test]
fn the_execution_order_has_no_say() {
    for execution in [vec![], vec![1, 2, 3, 4, 5], vec![5, 4, 3, 2, 1]] {
        let menu = Menu {
            activation: vec![2, 3, 1, 4, 5],
            execution,
            ..holding(&[6, 2, 6, 6, 0])
        };
        assert_eq!(answered(&menu), (6, 3));
    }
}

#[test]
fn a_peak_of_0_has_the_first_of_the_order() {
    let nothing = holding(&[0, 0, 0, 0]);
    for (activation, task) in [([1, 2, 3, 4], 1), ([3, 1, 2, 4], 3), ([2, 3, 1, 4], 2)] {
        assert_eq!(answered(&in_order(&nothing, &activation)), (0, task));
    }
    let chain = Menu::new(1, 0, &[(0, 0, 0), (1, 0, 0), (2, 0, 0)]);
    assert_eq!(answered(&in_order(&chain, &[3, 2, 1])), (0, 3));
    // A single tray is enough to set another peak.
    assert_eq!(answered(&holding(&[0, 0, 1, 0])), (1, 3));
    assert_eq!(answered(&holding(&[0, 0, 0, 1])), (1, 4));
}

#[test]
fn one_step() {
    for (work, out) in [(0, 0), (1, 0), (0, 1), (u16::MAX, u16::MAX)] {
        let peak = u32::from(work) + u32::from(out);
        let menu = Menu::new(1, 0, &[(0, work, out)]);
        assert_eq!(answered(&menu), (peak, 1));
    }
}

/// A chain in which each task leaves 2 trays and holds 5: the first works with 3,
/// all others, which are fed 2, with 1.
fn level_chain(order: &[u16]) -> Menu {
    let mut records = vec![(0, 1, 2); order.len()];
    for pair in order.windows(2) {
        records[usize::from(pair[0]) - 1].0 = pair[1];
    }
    records[usize::from(order[0]) - 1].1 = 3;
    in_order(&Menu::new(1, 0, &records), order)
}

#[test]
fn a_chain_where_all_sums_are_equal() {
    for order in [&[1, 2, 3, 4][..], &[4, 3, 2, 1], &[3, 1, 4, 2], &[2, 1]] {
        let menu = level_chain(order);
        assert_eq!(sums(&menu.records, order), vec![5; order.len()]);
        assert_eq!(answered(&menu), (5, order[0]));
    }
    // One tray more for one of them.
    let mut menu = level_chain(&[3, 1, 4, 2]);
    menu.records[3].work += 1;
    assert_eq!(answered(&menu), (6, 4));
    // One tray less for the first.
    let mut menu = level_chain(&[3, 1, 4, 2]);
    menu.records[2].work -= 1;
    assert_eq!(answered(&menu), (5, 1));
}

#[test]
fn the_largest_plans() {
    let rising: Vec<u16> = (1..=1024).collect();
    let falling: Vec<u16> = (1..=1024).rev().collect();
    for order in [rising, falling] {
        let mut menu = level_chain(&order);
        assert_eq!(answered(&menu), (5, order[0]));
        let last = usize::from(order[1023]) - 1;
        menu.records[last].work += 1;
        assert_eq!(answered(&menu), (6, order[1023]));
    }
    // 65,535 trays more are held with each task.
    let mut star = vec![(1024, 65_535, 65_535); 1023];
    star.push((0, 65_535, 65_535));
    let peak = 1025 * 65_535;
    assert_eq!(answered(&Menu::new(64, 0, &star)), (peak, 1024));
    // The root holds as much as the last task before it, or one tray less or more.
    star[1023] = (0, 65_535, 0);
    let order: Vec<u16> = (1..1024).rev().chain([1024]).collect();
    let mut menu = in_order(&Menu::new(64, 0, &star), &order);
    assert_eq!(answered(&menu), (1024 * 65_535, 1));
    menu.records[1023].work -= 1;
    assert_eq!(answered(&menu), (1024 * 65_535, 1));
    menu.records[0].work -= 1;
    assert_eq!(answered(&menu), (1024 * 65_535 - 1, 1));
    menu.records[0].work -= 1;
    assert_eq!(answered(&menu), (1024 * 65_535 - 1, 1024));
}

#[test]
fn reports_and_fetch_name_no_task() {
    for menu in [plan_a(), plan_c(), holding(&[0, 0, 0])] {
        let (_, starts, mut plan) = menu.begun();
        let mut started = starts;
        for ended in 0..menu.records.len() {
            let (answer, starts) = done(&mut plan, started[ended]);
            assert_eq!(answer.number, 0);
            assert_eq!((answer.peak, answer.peak_task), (0, 0));
            started.extend(starts);
        }
        let (answer, _) = fetch(&mut plan);
        assert_eq!(answer.number, 0);
        assert_eq!((answer.peak, answer.peak_task), (0, 0));
    }
}

#[test]
fn the_next_plan_has_its_own() {
    let (_, starts, mut plan) = plan_a().begun();
    finish(&mut plan, starts);
    fetch(&mut plan);
    for command in plan_c().commands() {
        let (answer, _) = give(&mut plan, &command);
        assert_eq!((answer.peak, answer.peak_task), (0, 0));
    }
    let (answer, _) = give(&mut plan, &[0x05]);
    assert_eq!((answer.peak, answer.peak_task), (6, 3));
}
