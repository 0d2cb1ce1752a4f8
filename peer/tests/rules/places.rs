//! Shelves out for cleaning, 08: cases worked out by hand.

use crate::menu::{
    ask, done, give, hex, places, plan_a, plan_a_within, plan_c, refused, written, Menu,
};
use peer::generate::encode;
use peer::{Answer, Command, Plan};

/// An accepted 08 that starts so many: no offers, no peak and no task of it.
pub fn taken(starts: usize) -> Answer {
    Answer {
        used: 5,
        starts,
        ..Answer::default()
    }
}

/// Booked trays, trays in use, fullness and standing.
pub fn figures(plan: &Plan) -> (u32, u32, u32, [u32; 4]) {
    (
        plan.booked(),
        plan.in_use(),
        plan.fullness(),
        plan.standing(),
    )
}

/// The bound that is written of a plan.
pub fn bound_written(plan: &Plan) -> u32 {
    let bytes = written(plan, Plan::WRITTEN).unwrap();
    u32::from_le_bytes([bytes[4], bytes[5], bytes[6], bytes[7]])
}

#[test]
fn more_places_start_what_waits() {
    let (_, _, mut plan) = plan_a().begun();
    assert_eq!(figures(&plan), (6, 6, 857, [2, 0, 1, 0]));
    assert_eq!(places(&mut plan, 12), (taken(1), vec![2]));
    assert_eq!(figures(&plan), (12, 12, 1000, [0, 1, 2, 0]));
}

#[test]
fn below_the_peak_then_below_the_booked_trays() {
    let (_, _, mut plan) = plan_a_within(12).begun();
    assert_eq!(plan.booked(), 12);
    for (bound, number) in [(0, 9), (1, 9), (6, 9), (7, 13), (10, 13), (11, 13)] {
        let (answer, _) = places(&mut plan, bound);
        assert_eq!(answer, refused(number), "{bound}");
    }
    for bound in [12, 12, 13, u32::MAX, 12] {
        assert_eq!(places(&mut plan, bound), (taken(0), vec![]), "{bound}");
        assert_eq!(bound_written(&plan), bound);
    }
}

#[test]
fn each_bound_right_after_begin() {
    for opened in 7..=14 {
        for bound in 0..=15 {
            let (_, _, mut plan) = plan_a_within(opened).begun();
            let starts_both = opened >= 12;
            let wanted = match bound {
                0..=6 => (refused(9), vec![]),
                7..=11 if starts_both => (refused(13), vec![]),
                12.. if !starts_both => (taken(1), vec![2]),
                _ => (taken(0), vec![]),
            };
            assert_eq!(places(&mut plan, bound), wanted, "{opened} to {bound}");
        }
    }
}

#[test]
fn the_peak_is_that_of_the_whole_order() {
    // Task 2 sets it, and has ended when task 3 runs on 3 trays.
    let (_, _, mut plan) = plan_a().begun();
    for task in [1, 2] {
        done(&mut plan, task);
    }
    assert_eq!(figures(&plan), (3, 3, 428, [0, 0, 1, 2]));
    for bound in [0, 2, 3, 4, 6] {
        assert_eq!(places(&mut plan, bound).0, refused(9), "{bound}");
    }
    assert_eq!(places(&mut plan, 7).0, taken(0));
    // In plan C it is task 3, while task 4 runs on 5 trays.
    let (_, _, mut plan) = plan_c().begun();
    for task in [1, 2, 3] {
        done(&mut plan, task);
    }
    assert_eq!(plan.booked(), 5);
    assert_eq!(places(&mut plan, 5).0, refused(9));
    assert_eq!(places(&mut plan, 6).0, taken(0));
}

#[test]
fn trays_in_use_do_not_decide() {
    // One station: 12 trays are booked, and 6 of them in use.
    let menu = Menu {
        processors: 1,
        ..plan_a_within(12)
    };
    let (_, _, mut plan) = menu.begun();
    assert_eq!((plan.booked(), plan.in_use()), (12, 6));
    assert_eq!(places(&mut plan, 11).0, refused(13));
    assert_eq!(places(&mut plan, 12).0, taken(0));
}

#[test]
fn booked_without_a_start() {
    let menu = Menu {
        processors: 1,
        ..plan_a()
    };
    let (_, _, mut plan) = menu.begun();
    assert_eq!(places(&mut plan, 12), (taken(0), vec![]));
    assert_eq!(figures(&plan), (12, 6, 1000, [0, 2, 1, 0]));
    assert_eq!(done(&mut plan, 1).1, [2]);
}

#[test]
fn one_place_too_few_books_nothing() {
    let (_, _, mut plan) = plan_a().begun();
    for bound in [8, 9, 10, 11, 7, 11] {
        assert_eq!(places(&mut plan, bound), (taken(0), vec![]));
        assert_eq!((plan.booked(), plan.standing()), (6, [2, 0, 1, 0]));
    }
    assert_eq!(places(&mut plan, 12).1, [2]);
}

#[test]
fn no_later_smaller_task_is_booked() {
    // Task 2 needs 6 trays, and task 3 would fit.
    let menu = Menu::new(4, 9, &[(4, 5, 1), (4, 5, 1), (4, 0, 1), (0, 0, 0)]);
    let (_, starts, mut plan) = menu.begun();
    assert_eq!((starts, plan.booked()), (vec![1], 6));
    assert_eq!(places(&mut plan, 11), (taken(0), vec![]));
    assert_eq!(plan.booked(), 6);
    // Then task 2, and not task 3 behind it.
    assert_eq!(places(&mut plan, 12), (taken(1), vec![2]));
    assert_eq!(places(&mut plan, 13), (taken(1), vec![3]));
}

/// So many tasks of one tray feed the root, and with one place they run one by one.
pub fn star(leaves: u16, processors: u8) -> Menu {
    let mut records = vec![(leaves + 1, 1, 0); leaves.into()];
    records.push((0, 0, 0));
    Menu::new(processors, 1, &records)
}

#[test]
fn the_execution_order_chooses() {
    let menu = Menu {
        execution: vec![6, 4, 2, 5, 1, 3, 7],
        ..star(6, 4)
    };
    let (_, starts, mut plan) = menu.begun();
    assert_eq!(starts, [1]);
    assert_eq!(places(&mut plan, 6), (taken(3), vec![6, 4, 2]));
    let without_04 = Menu {
        execution: vec![],
        ..menu
    };
    let (_, _, mut plan) = without_04.begun();
    assert_eq!(places(&mut plan, 6), (taken(3), vec![2, 3, 4]));
}

#[test]
fn the_most_starts() {
    // A task runs already, and so 63 of 64 stations are free.
    let (_, _, mut plan) = star(100, 64).begun();
    let wanted: Vec<u16> = (2..=64).collect();
    assert_eq!(places(&mut plan, 100), (taken(63), wanted));
    assert_eq!(figures(&plan), (100, 64, 1000, [0, 37, 64, 0]));
}

#[test]
fn a_plan_that_needs_nothing() {
    let (_, _, mut plan) = Menu::new(1, 0, &[(0, 0, 0)]).begun();
    for bound in [0, 0, 1, u32::MAX, 0] {
        assert_eq!(places(&mut plan, bound), (taken(0), vec![]));
        assert_eq!((plan.fullness(), bound_written(&plan)), (0, bound));
    }
}

#[test]
fn the_largest_plan() {
    let most = u32::from(u16::MAX);
    let mut records = vec![(1024, u16::MAX, u16::MAX); 1023];
    records.push((0, u16::MAX, u16::MAX));
    // Its last step needs all outs, and its work and out.
    let (answer, _, mut plan) = Menu::new(64, 1025 * most, &records).begun();
    assert_eq!((answer.number, answer.peak), (0, 1025 * most));
    assert_eq!(places(&mut plan, 1025 * most - 1).0, refused(9));
    assert_eq!(places(&mut plan, u32::MAX).0, taken(0));
    assert_eq!(plan.booked(), 2 * 1023 * most);
    assert_eq!(places(&mut plan, 2 * 1023 * most - 1).0, refused(13));
    assert_eq!(places(&mut plan, 2 * 1023 * most).0, taken(0));
    assert_eq!(plan.fullness(), 1000);
}

#[test]
fn anywhere_in_a_stream() {
    for (text, place) in [
        ("08 0c 00 00 00", 0),
        ("ff 08 0c 00 00 00", 1),
        ("08 0c 00 00 00 00 01", 0),
        ("06 08 08 0c 00 00 00 08", 2),
    ] {
        let (_, _, mut plan) = plan_a().begun();
        let got = ask(&mut plan, &hex(text), place, 100);
        assert_eq!(got, (taken(1), vec![2]), "{text}");
    }
}

#[test]
fn the_lowest_byte_comes_first() {
    let (_, _, mut plan) = plan_a().begun();
    for (text, bound) in [
        ("08 09 00 00 00", 9),
        ("08 00 01 00 00", 1 << 8),
        ("08 00 00 01 00", 1 << 16),
        ("08 00 00 00 80", 1 << 31),
        ("08 0d 0c 0b 0a", 0x0a0b_0c0d),
        ("08 ff ff ff ff", u32::MAX),
    ] {
        assert_eq!(encode(Command::Places(bound)), hex(text));
        assert_eq!(give(&mut plan, &hex(text)).0.number, 0);
        assert_eq!(bound_written(&plan), bound);
    }
}

#[test]
fn starts_go_to_the_front_of_the_list() {
    for starts_len in [64, 65, 1024] {
        for mark in [0, 0xffff] {
            let (_, _, mut plan) = star(6, 4).begun();
            let mut starts = vec![mark; starts_len];
            let answer = plan.command(&hex("08 06 00 00 00"), 0, &mut starts);
            assert_eq!((answer, &starts[..3]), (taken(3), &[2, 3, 4][..]));
            assert_eq!(starts[3..], vec![mark; starts_len - 3]);
        }
    }
}
