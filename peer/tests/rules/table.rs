//! The cases marked with a dagger.

use crate::menu::{done, plan_a, plan_a_within, plan_c, Menu};
use peer::{desk_peak, needs, Answer};

/// What BEGIN answers: number, peak, the peak's task, starts and B.
fn begin(menu: &Menu) -> (u8, u32, u16, Vec<u16>, u32) {
    let (answer, starts, plan) = menu.begun();
    let Answer {
        number,
        peak,
        peak_task,
        ..
    } = answer;
    (number, peak, peak_task, starts, plan.booked())
}

/// What the desk answers of the same steps: the peak and its task.
fn desk(menu: &Menu) -> (u32, u16) {
    let answer = desk_peak(&menu.records, &menu.activation);
    (answer.peak, answer.peak_task)
}

#[test]
fn the_table() {
    let (a, c) = (plan_a(), plan_c());
    assert_eq!(desk(&a), (7, 2));
    assert_eq!(begin(&a), (0, 7, 2, vec![1], 6));
    assert_eq!(begin(&plan_a_within(6)), (9, 0, 0, vec![], 0));
    assert_eq!(begin(&plan_a_within(12)), (0, 7, 2, vec![1, 2], 12));
    assert_eq!(begin(&plan_a_within(11)), (0, 7, 2, vec![1], 6));

    assert_eq!(needs(&c.records)[..4], [3, 3, 6, 5]);
    assert_eq!(desk(&c), (6, 3));
    assert_eq!(begin(&c), (0, 6, 3, vec![1, 2], 6));
    let (_, _, mut plan) = c.begun();
    assert_eq!(plan.standing(), [0, 2, 2, 0]);
    let (answer, starts) = done(&mut plan, 1);
    assert_eq!((answer.offers, plan.booked_by(3), plan.booked()), (1, 3, 6));
    assert_eq!((plan.in_use(), starts), (5, vec![]));
    let (_, starts) = done(&mut plan, 2);
    assert_eq!((plan.booked(), starts), (6, vec![3]));
    let (_, starts) = done(&mut plan, 3);
    assert_eq!((plan.booked(), starts), (5, vec![4]));
    done(&mut plan, 4);
    assert_eq!(plan.booked(), 3);

    let one_step = Menu::new(1, 0, &[(0, 0, 0)]);
    assert_eq!(begin(&one_step), (0, 0, 1, vec![1], 0));
}
