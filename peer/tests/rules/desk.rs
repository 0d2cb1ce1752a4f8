//! The planners' desk.

use crate::menu::{plan_a, plan_c};
use peer::{desk_peak, DeskAnswer, Record};

/// What the desk answers: number, peak and the peak's task.
fn answer(records: &[(u16, u16, u16)], activation: &[u16]) -> (u8, u32, u16) {
    let records: Vec<Record> = records
        .iter()
        .map(|&(parent, work, out)| Record { parent, work, out })
        .collect();
    let answer = desk_peak(&records, activation);
    (answer.number, answer.peak, answer.peak_task)
}

#[test]
fn peaks() {
    for (menu, peak, peak_task) in [(plan_a(), 7, 2), (plan_c(), 6, 3)] {
        let wanted = DeskAnswer {
            number: 0,
            peak,
            peak_task,
        };
        assert_eq!(desk_peak(&menu.records, &menu.activation), wanted);
    }
    assert_eq!(answer(&[(0, 0, 0)], &[1]), (0, 0, 1));
    // Hopping between subtrees: 2 and 4 wait while 1 and 3 run.
    let records = [(2, 1, 4), (5, 0, 2), (4, 3, 1), (5, 0, 1), (0, 0, 0)];
    assert_eq!(answer(&records, &[1, 2, 3, 4, 5]), (0, 6, 2));
    assert_eq!(answer(&records, &[1, 3, 2, 4, 5]), (0, 8, 3));
}

#[test]
fn the_largest_lists() {
    let star: Vec<_> = (1..=1024)
        .map(|task| (if task == 1024 { 0 } else { 1024 }, 65_535, 65_535))
        .collect();
    let order: Vec<u16> = (1..=1024).collect();
    assert_eq!(answer(&star, &order), (0, 1025 * 65_535, 1024));
    let longer: Vec<_> = (0..1025).map(|_| (0, 0, 0)).collect();
    let order: Vec<u16> = (1..=1025).collect();
    assert_eq!(answer(&longer, &order), (4, 0, 0));
}

#[test]
fn outside_limits_comes_first() {
    assert_eq!(answer(&[], &[]), (4, 0, 0));
    assert_eq!(answer(&[(0, 0, 0)], &[]), (4, 0, 0));
    assert_eq!(answer(&[], &[1]), (4, 0, 0));
    assert_eq!(answer(&[(0, 0, 0)], &[1, 1]), (4, 0, 0));
    assert_eq!(answer(&[(2, 0, 0)], &[1]), (4, 0, 0));
    assert_eq!(answer(&[(0, 0, 0)], &[0]), (4, 0, 0));
    assert_eq!(answer(&[(0, 0, 0)], &[2]), (4, 0, 0));
    // A step twice and a number out of limits: 4.
    assert_eq!(answer(&[(0, 0, 0); 3], &[1, 1, 4]), (4, 0, 0));
    assert_eq!(
        answer(&[(0, 0, 0), (0, 0, 0), (4, 0, 0)], &[1, 1, 2]),
        (4, 0, 0)
    );
}

#[test]
fn then_five_seven_and_eight() {
    assert_eq!(answer(&[(0, 0, 0), (0, 0, 0)], &[1, 1]), (5, 0, 0));
    assert_eq!(answer(&[(0, 0, 0), (0, 0, 0)], &[2, 1]), (7, 0, 0));
    assert_eq!(answer(&[(2, 0, 0), (1, 0, 0)], &[2, 1]), (7, 0, 0));
    assert_eq!(answer(&[(1, 0, 0)], &[1]), (7, 0, 0));
    assert_eq!(answer(&[(0, 0, 0), (1, 0, 0)], &[1, 2]), (8, 0, 0));
    assert_eq!(answer(&[(0, 0, 0), (2, 0, 0)], &[2, 1]), (8, 0, 0));
    assert_eq!(answer(&[(0, 0, 0), (1, 0, 0)], &[2, 1]), (0, 0, 2));
}
