//! Plan C's day, step by step.

use crate::menu::{done, fetch, plan_c};
use peer::{Phase, Plan};

fn figures(plan: &Plan) -> (u32, u32, [u32; 4]) {
    (plan.booked(), plan.in_use(), plan.standing())
}

#[test]
fn whole_day() {
    let (answer, starts, mut plan) = plan_c().begun();
    assert_eq!((answer.peak, answer.peak_task), (6, 3));
    assert_eq!(starts, [1, 2]);
    assert_eq!(figures(&plan), (6, 6, [0, 2, 2, 0]));

    let (answer, starts) = done(&mut plan, 1);
    assert_eq!((answer.offers, starts), (1, vec![]));
    assert_eq!(plan.booked_by(3), 3);
    assert_eq!(figures(&plan), (6, 5, [0, 2, 1, 1]));

    let (answer, starts) = done(&mut plan, 2);
    assert_eq!((answer.offers, starts), (1, vec![3]));
    assert_eq!(figures(&plan), (6, 6, [0, 1, 1, 2]));

    let (answer, starts) = done(&mut plan, 3);
    assert_eq!((answer.offers, starts), (1, vec![4]));
    assert_eq!(figures(&plan), (5, 5, [0, 0, 1, 3]));

    let (answer, starts) = done(&mut plan, 4);
    assert_eq!((answer.offers, starts), (0, vec![]));
    assert_eq!(plan.booked_by(4), 3);
    assert_eq!(figures(&plan), (3, 3, [0, 0, 0, 4]));
    assert_eq!(plan.phase(), Phase::Ready);

    let (answer, starts) = fetch(&mut plan);
    assert_eq!((answer.offers, starts), (0, vec![]));
    assert_eq!(plan.booked_by(4), 0);
    assert_eq!(figures(&plan), (0, 0, [0, 0, 0, 4]));
    assert_eq!(plan.phase(), Phase::Over);
}
