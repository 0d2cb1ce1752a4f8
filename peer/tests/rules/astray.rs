//! Where a kitchen goes astray, and this one must not.

use crate::menu::{done, plan_a, plan_c, Menu};

#[test]
fn the_out_is_not_added_to_the_sum_twice() {
    let (_, _, mut plan) = plan_c().begun();
    done(&mut plan, 1);
    let (_, starts) = done(&mut plan, 2);
    assert_eq!((starts, plan.booked_by(3)), (vec![3], 6));
}

#[test]
fn no_later_smaller_task_is_booked() {
    // Task 2 lacks room, and task 3 would fit.
    let menu = Menu::new(3, 8, &[(4, 5, 1), (4, 5, 1), (4, 0, 1), (0, 0, 0)]);
    let (_, starts, plan) = menu.begun();
    assert_eq!((starts, plan.booked()), (vec![1], 6));
    assert_eq!(plan.standing(), [3, 0, 1, 0]);
}

#[test]
fn a_waiting_ancestor_gets_no_offer() {
    let (_, _, mut plan) = plan_a().begun();
    let (answer, _) = done(&mut plan, 1);
    assert_eq!(answer.offers, 0);
}

#[test]
fn the_out_of_an_ended_task_is_not_freed() {
    let (_, _, mut plan) = plan_a().begun();
    done(&mut plan, 1);
    assert_eq!((plan.booked_by(2), plan.booked_by(3)), (6, 1));
}

#[test]
fn nothing_left_of_r_makes_no_offer() {
    // Task 1 is all out; its parent is booked, and nothing is left to share.
    let (_, starts, mut plan) = Menu::new(1, 2, &[(2, 0, 2), (0, 0, 0)]).begun();
    assert_eq!((starts, plan.standing()), (vec![1], [0, 1, 1, 0]));
    let (answer, starts) = done(&mut plan, 1);
    assert_eq!((answer.offers, starts), (0, vec![2]));
}

#[test]
fn an_offer_of_nothing_is_an_offer() {
    // The parent is served by its own out; the rest passes it by.
    let (_, _, mut plan) = Menu::new(1, 5, &[(2, 3, 2), (3, 0, 0), (0, 0, 0)]).begun();
    let (answer, _) = done(&mut plan, 1);
    assert_eq!((answer.offers, plan.booked()), (2, 2));
}

#[test]
fn the_execution_order_chooses() {
    let menu = Menu {
        processors: 1,
        memory_bound: 12,
        execution: vec![2, 1, 3],
        ..plan_a()
    };
    assert_eq!(menu.begun().1, [2]);
}
