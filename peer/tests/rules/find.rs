//! A good activation order found: cases worked out by hand.

use crate::menu::{accepting, done, fetch, found, give, hex, plan_a, plan_c, Menu};
use crate::postorder::{is_asked_for, peak};
use peer::{desk_peak, Phase, Plan, Wrote};

/// A list of so many entries is longer than a small plan needs.
const ENOUGH: usize = 20;

/// The order of a tree whose records are parent, work, out.
fn order(records: &[(u16, u16, u16)]) -> Result<Vec<u16>, u8> {
    let menu = Menu::new(1, 0, records);
    let order = found(&accepting(&menu.steps()), records.len());
    if let Ok(order) = &order {
        assert!(is_asked_for(&menu.records, order), "{order:?}");
    }
    order
}

/// The order, its peak, and the peak of the order by numbers.
fn order_and_peaks(records: &[(u16, u16, u16)]) -> (Vec<u16>, u32, u32) {
    let menu = Menu::new(1, 0, records);
    let order = order(records).unwrap();
    let answers = [&order, &menu.activation].map(|order| desk_peak(&menu.records, order));
    assert_eq!(answers.map(|answer| answer.number), [0, 0]);
    assert_eq!(answers[0].peak, peak(&menu.records, &order));
    (order, answers[0].peak, answers[1].peak)
}

#[test]
fn plan_a_by_numbers() {
    // Both children: peak 6 less 1.
    let mut list = [0xbeef; ENOUGH];
    let wrote = plan_a().given().find_order(&mut list);
    let (number, count) = (0, 3);
    assert_eq!(wrote, Wrote { number, count });
    assert_eq!(list[..count], [1, 2, 3]);
    assert_eq!(list[count..], [0xbeef; ENOUGH - 3]);
}

#[test]
fn plan_c_takes_step_2_first() {
    // Step 1: peak 3 less 2. Step 2: peak 3 less 1.
    let records = [(3, 1, 2), (3, 2, 1), (4, 1, 2), (0, 0, 3)];
    assert_eq!(order_and_peaks(&records), (vec![2, 1, 3, 4], 6, 6));
    assert_eq!(found(&plan_c().given(), 4), Ok(vec![2, 1, 3, 4]));
}

#[test]
fn one_task() {
    assert_eq!(order(&[(0, 0, 0)]), Ok(vec![1]));
    assert_eq!(order(&[(0, 65_535, 65_535)]), Ok(vec![1]));
}

#[test]
fn the_order_by_numbers_is_worse() {
    let records = [(3, 0, 4), (3, 9, 1), (0, 0, 0)];
    assert_eq!(order_and_peaks(&records), (vec![2, 1, 3], 10, 14));
    // By the peak alone step 1 would come first here.
    let records = [(3, 1, 9), (3, 8, 1), (0, 0, 0)];
    assert_eq!(order_and_peaks(&records), (vec![2, 1, 3], 11, 18));
}

#[test]
fn the_peak_of_the_whole_subtree_counts() {
    // Step 3 needs 2 alone, but step 2 below it 21.
    let records = [(4, 5, 5), (3, 20, 1), (4, 0, 1), (0, 0, 0)];
    assert_eq!(order_and_peaks(&records), (vec![2, 3, 1, 4], 21, 26));
    // What is held of step 1 while step 2 runs sets the peak of step 3: 4 + 9.
    let records = [(3, 5, 4), (3, 5, 4), (5, 0, 1), (5, 11, 0), (0, 0, 0)];
    assert_eq!(order_and_peaks(&records), (vec![1, 2, 3, 4, 5], 13, 13));
    let records = [(3, 5, 4), (3, 5, 4), (5, 0, 1), (5, 13, 0), (0, 0, 0)];
    assert_eq!(order_and_peaks(&records), (vec![4, 1, 2, 3, 5], 13, 14));
    // That peak is the one with step 2 ahead of step 1: 10, and not 14.
    let records = [(3, 0, 4), (3, 9, 1), (5, 0, 1), (5, 11, 0), (0, 0, 0)];
    assert_eq!(order_and_peaks(&records), (vec![4, 2, 1, 3, 5], 11, 14));
}

#[test]
fn a_step_s_own_need_sets_its_subtree_s_peak() {
    // Step 2 holds 1 + 7 + 2 itself, more than step 1 below it.
    let records = [(2, 0, 1), (4, 7, 2), (4, 7, 0), (0, 0, 0)];
    assert_eq!(order(&records), Ok(vec![1, 2, 3, 4]));
    let records = [(2, 0, 1), (4, 6, 2), (4, 7, 0), (0, 0, 0)];
    assert_eq!(order(&records), Ok(vec![1, 2, 3, 4]));
    let records = [(2, 0, 1), (4, 5, 2), (4, 7, 0), (0, 0, 0)];
    assert_eq!(order(&records), Ok(vec![3, 1, 2, 4]));
}

#[test]
fn equal_ones_by_lower_number() {
    // A leaf's peak less its out is its work.
    let works = [3, 5, 3, 5, 0, 5, 3];
    for outs in [[0; 7], [1, 2, 3, 4, 5, 6, 7], [7, 6, 5, 4, 3, 2, 1]] {
        let mut records: Vec<_> = (works.iter().zip(outs))
            .map(|(&work, out)| (8, work, out))
            .collect();
        records.push((0, 0, 0));
        assert_eq!(order(&records), Ok(vec![2, 4, 6, 1, 3, 7, 5, 8]));
    }
    // Subtrees as well, by the number of their top.
    let records = [(0, 0, 0), (1, 0, 1), (1, 0, 1), (3, 4, 1), (2, 4, 1)];
    assert_eq!(order(&records), Ok(vec![5, 2, 4, 3, 1]));
}

#[test]
fn hopping_may_do_better() {
    let records = [(2, 10, 1), (5, 0, 8), (4, 10, 1), (5, 0, 8), (0, 0, 0)];
    assert_eq!(order_and_peaks(&records), (vec![1, 2, 3, 4, 5], 19, 19));
    let hopping = desk_peak(&Menu::new(1, 0, &records).records, &[1, 3, 2, 4, 5]);
    assert_eq!((hopping.number, hopping.peak), (0, 17));
}

#[test]
fn the_order_is_accepted_where_the_typed_one_is_not() {
    let menu = Menu::new(1, 10, &[(3, 0, 4), (3, 9, 1), (0, 0, 0)]);
    assert_eq!(menu.begun().0.number, 9);
    let activation = found(&menu.given(), 3).unwrap();
    let begun = |memory_bound| {
        let menu = Menu {
            memory_bound,
            activation: activation.clone(),
            ..menu.clone()
        };
        menu.begun().0
    };
    assert_eq!((begun(10).number, begun(10).peak), (0, 10));
    assert_eq!(begun(9).number, 9);
}

/// Finds the order of plan C in lists of all lengths.
fn check_lists(plan: &Plan) {
    for list_len in 0..4 {
        assert_eq!(found(plan, list_len), Err(11), "{list_len}");
    }
    for list_len in (4..ENOUGH).chain([64, 1023, 1024, 1025, 5000]) {
        assert_eq!(found(plan, list_len), Ok(vec![2, 1, 3, 4]), "{list_len}");
    }
}

/// Refused with a number whatever the list.
fn check_refused(plan: &Plan, number: u8) {
    for list_len in (0..ENOUGH).chain([1024, 5000]) {
        assert_eq!(found(plan, list_len), Err(number), "{list_len}");
    }
}

#[test]
fn from_the_last_step_on() {
    check_refused(&Plan::new(), 3);
    let commands = plan_c().commands();
    let (steps, all) = (1 + 4, commands.len());
    for given in 1..steps {
        check_refused(&accepting(&commands[..given]), 3);
    }
    for given in steps..=all {
        check_lists(&accepting(&commands[..given]));
    }
}

#[test]
fn in_running_ready_and_over() {
    let (_, _, mut plan) = plan_c().begun();
    for task in 1..=4 {
        assert_eq!(plan.phase(), Phase::Running);
        check_lists(&plan);
        done(&mut plan, task);
    }
    assert_eq!(plan.phase(), Phase::Ready);
    check_lists(&plan);
    fetch(&mut plan);
    assert_eq!(plan.phase(), Phase::Over);
    check_lists(&plan);
    // A bad PLAN leaves the old plan.
    assert_eq!(give(&mut plan, &hex("01 00 00 01 00 00 00 00")).0.number, 4);
    check_lists(&plan);
}

#[test]
fn a_next_plan_has_its_own_order() {
    for mut plan in [plan_c().given(), plan_c().over()] {
        for command in Menu::new(1, 0, &[(0, 0, 0), (1, 0, 0)]).steps() {
            check_lists_or_refused(&plan);
            assert_eq!(give(&mut plan, &command).0.number, 0);
        }
        assert_eq!(found(&plan, 2), Ok(vec![2, 1]));
        assert_eq!(found(&plan, 1), Err(11));
    }
}

/// Plan C as it was, or a next one whose steps are not all given.
fn check_lists_or_refused(plan: &Plan) {
    match plan.phase() {
        Phase::Steps => check_refused(plan, 3),
        _ => check_lists(plan),
    }
}

#[test]
fn it_needs_no_orders_and_leaves_them() {
    let mut menu = plan_c();
    menu.activation = vec![4, 3, 2, 1];
    let mut plan = menu.given();
    check_lists(&plan);
    assert_eq!(give(&mut plan, &[0x05]).0.number, 8);
    check_lists(&plan);
}

#[test]
fn not_exactly_one_root() {
    for parents in [
        &[1][..],
        &[2, 1],
        &[2, 2],
        &[0, 0],
        &[2, 3, 1],
        &[0, 1, 0],
        &[0, 0, 0, 0],
        // Cycles beside two roots.
        &[0, 2, 0],
        &[3, 0, 1, 0],
    ] {
        check_refused(&given(parents), 7);
    }
}

/// A plan given steps with these parents.
fn given(parents: &[u16]) -> Plan {
    let records: Vec<_> = parents.iter().map(|&parent| (parent, 1, 1)).collect();
    accepting(&Menu::new(1, 0, &records).steps())
}

#[test]
fn a_chain_of_parents_that_never_reaches_the_root() {
    for parents in [
        // A step that feeds itself.
        &[0, 2][..],
        &[1, 0],
        &[0, 1, 3, 2],
        // Two that feed each other.
        &[2, 1, 0],
        &[0, 3, 2],
        // Three, and steps that feed them.
        &[2, 3, 1, 0],
        &[0, 1, 2, 5, 6, 4, 4, 7],
        // Two cycles.
        &[2, 1, 4, 3, 0],
    ] {
        check_refused(&given(parents), 12);
    }
}

#[test]
fn a_refusal_answers_its_number_and_no_entries() {
    for (plan, number) in [
        (Plan::new(), 3),
        (given(&[0, 0]), 7),
        (given(&[0, 2]), 12),
        (given(&[0, 1]), 11),
    ] {
        let mut list = [0xbeef];
        assert_eq!(plan.find_order(&mut list), Wrote { number, count: 0 });
        assert_eq!(list, [0xbeef]);
    }
}
