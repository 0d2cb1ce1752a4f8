//! Why a task isn't starting: cases worked out by hand.

use crate::menu::{accepting, done, give, plan_a, plan_c, Menu};
use peer::Reason::{Ended, NoProcessor, Refused, Running, Unfed};
use peer::{Phase, Plan, Reason};

/// Numbers of no task in a plan of n.
fn no_tasks(n: u16) -> [u16; 4] {
    [0, n + 1, n + 256, 65_535]
}

fn not_booked(first: u16, lack: u32) -> Reason {
    Reason::NotBooked { first, lack }
}

/// The reasons of tasks 1 to n. All other numbers are refused.
fn whys(plan: &Plan) -> Vec<Reason> {
    let n = plan.standing().iter().sum::<u32>() as u16;
    for task in no_tasks(n) {
        assert_eq!(plan.why(task), Refused(4), "{task}");
    }
    (1..=n).map(|task| plan.why(task)).collect()
}

/// The reasons right after BEGIN.
fn whys_of_begun(menu: &Menu) -> Vec<Reason> {
    whys(&menu.begun().2)
}

/// The reasons after a report.
fn whys_after(plan: &mut Plan, task: u16) -> Vec<Reason> {
    assert_eq!(done(plan, task).0.number, 0);
    whys(plan)
}

fn check_out_of_turn(plan: &Plan, phase: Phase) {
    assert_eq!(plan.phase(), phase);
    for task in (1..=5).chain(no_tasks(3)) {
        assert_eq!(plan.why(task), Refused(3), "{task}");
    }
}

#[test]
fn refused_outside_running() {
    check_out_of_turn(&Plan::new(), Phase::Empty);
    let commands = plan_a().commands();
    for given in 1..=3 {
        check_out_of_turn(&accepting(&commands[..given]), Phase::Steps);
    }
    for given in 4..=commands.len() {
        check_out_of_turn(&accepting(&commands[..given]), Phase::Orders);
    }
    check_out_of_turn(&plan_a().ready(), Phase::Ready);
    let mut plan = plan_a().over();
    check_out_of_turn(&plan, Phase::Over);
    give(&mut plan, &commands[0]);
    check_out_of_turn(&plan, Phase::Steps);
}

#[test]
fn refused_after_a_refused_begin() {
    let memory_bound = 6;
    let (answer, _, plan) = Menu {
        memory_bound,
        ..plan_a()
    }
    .begun();
    assert_eq!(answer.number, 9);
    check_out_of_turn(&plan, Phase::Orders);
}

#[test]
fn plan_a_s_day() {
    let (_, _, mut plan) = plan_a().begun();
    // B = 6, and task 2 misses 6 of 7 places: 6 + 6 - 7. Task 3 is behind it.
    let lacking = not_booked(2, 5);
    assert_eq!(whys(&plan), [Running, lacking, lacking]);
    assert_eq!(whys_after(&mut plan, 1), [Ended, Running, Unfed(2)]);
    assert_eq!(whys_after(&mut plan, 2), [Ended, Ended, Running]);
}

#[test]
fn plan_a_at_other_bounds() {
    let whys_within = |memory_bound| {
        whys_of_begun(&Menu {
            memory_bound,
            ..plan_a()
        })
    };
    // With the 5 places more that task 2 lacks it is booked; with 4 it isn't.
    assert_eq!(whys_within(7 + 5), [Running, Running, Unfed(1)]);
    let lacking = not_booked(2, 1);
    assert_eq!(whys_within(7 + 4), [Running, lacking, lacking]);
}

#[test]
fn plan_c_s_day() {
    let (_, _, mut plan) = plan_c().begun();
    assert_eq!(whys(&plan), [Running, Running, Unfed(1), Unfed(3)]);
    assert_eq!(
        whys_after(&mut plan, 1),
        [Ended, Running, Unfed(2), Unfed(3)]
    );
    assert_eq!(whys_after(&mut plan, 2), [Ended, Ended, Running, Unfed(3)]);
    assert_eq!(whys_after(&mut plan, 3), [Ended, Ended, Ended, Running]);
}

#[test]
fn plan_c_with_the_other_child_first() {
    let (_, _, mut plan) = plan_c().begun();
    assert_eq!(
        whys_after(&mut plan, 2),
        [Running, Ended, Unfed(1), Unfed(3)]
    );
}

#[test]
fn a_feeder_comes_before_a_processor() {
    // One processor, and it is taken.
    let processors = 1;
    let menu = Menu {
        processors,
        ..plan_c()
    };
    let (_, _, mut plan) = menu.begun();
    assert_eq!(whys(&plan), [Running, NoProcessor, Unfed(1), Unfed(3)]);
    assert_eq!(
        whys_after(&mut plan, 1),
        [Ended, Running, Unfed(2), Unfed(3)]
    );
}

#[test]
fn booking_comes_before_a_feeder_and_a_processor() {
    // Plan A's task 3 has two unended children, and the processor is taken.
    let processors = 1;
    let menu = Menu {
        processors,
        ..plan_a()
    };
    let lacking = not_booked(2, 5);
    assert_eq!(whys_of_begun(&menu), [Running, lacking, lacking]);
}

#[test]
fn the_first_waiting_by_the_activation_order() {
    // Task 3 is booked, and task 2 comes next; the execution order and the
    // lower number of task 1 have no say. Task 2 lacks 6 + 6 - 8.
    let menu = Menu {
        activation: vec![3, 2, 1, 4],
        ..Menu::new(2, 8, &[(4, 5, 1), (4, 5, 1), (4, 5, 1), (0, 0, 0)])
    };
    let lacking = not_booked(2, 4);
    assert_eq!(whys_of_begun(&menu), [lacking, lacking, Running, lacking]);
}

#[test]
fn the_lowest_numbered_child_whatever_the_orders() {
    // Task 2 runs, and task 1 is behind it in both orders.
    let menu = Menu {
        processors: 1,
        memory_bound: 12,
        activation: vec![2, 1, 3],
        execution: vec![2, 1, 3],
        ..plan_a()
    };
    let (_, _, mut plan) = menu.begun();
    assert_eq!(whys(&plan), [NoProcessor, Running, Unfed(1)]);
    assert_eq!(whys_after(&mut plan, 2), [Running, Ended, Unfed(1)]);
}

#[test]
fn a_child_and_not_a_lower_numbered_task_below_it() {
    let menu = Menu {
        activation: vec![1, 3, 2],
        ..Menu::new(1, 9, &[(3, 1, 1), (0, 0, 0), (2, 0, 1)])
    };
    assert_eq!(whys_of_begun(&menu), [Running, Unfed(3), Unfed(1)]);
}

#[test]
fn a_smaller_task_waits_for_the_first() {
    // Task 3 would fit and has a processor; task 2 lacks 6 + 6 - 8.
    let menu = Menu::new(3, 8, &[(4, 5, 1), (4, 5, 1), (4, 0, 1), (0, 0, 0)]);
    let (_, _, mut plan) = menu.begun();
    let lacking = not_booked(2, 4);
    assert_eq!(whys(&plan), [Running, lacking, lacking, lacking]);
    assert_eq!(
        whys_after(&mut plan, 1),
        [Ended, Running, Running, Unfed(2)]
    );
}

/// Needs 2, 12, 5 and 2, peak 13. Task 2 is booked after tasks 1 and 3, of
/// which task 1 feeds it.
fn chain_beside_a_leaf() -> Menu {
    Menu {
        activation: vec![1, 3, 2, 4],
        ..Menu::new(2, 13, &[(2, 1, 1), (4, 10, 1), (4, 4, 1), (0, 0, 0)])
    }
}

#[test]
fn what_is_booked_below_is_not_missing() {
    let (_, _, mut plan) = chain_beside_a_leaf().begun();
    // B = 2 + 5. Task 2 misses 12 less the 2 of its child.
    let lacking = not_booked(2, 7 + 10 - 13);
    assert_eq!(whys(&plan), [Running, lacking, Running, lacking]);
    // B = 1 + 5. The ended child has left its out: task 2 misses 12 less 1.
    let lacking = not_booked(2, 6 + 11 - 13);
    assert_eq!(whys_after(&mut plan, 1), [Ended, lacking, Running, lacking]);
    assert_eq!(whys_after(&mut plan, 3), [Ended, Running, Ended, Unfed(2)]);
}

#[test]
fn the_lack_to_the_tray() {
    for (more, reason) in [(0, not_booked(2, 4)), (3, not_booked(2, 1)), (4, Unfed(1))] {
        let mut menu = chain_beside_a_leaf();
        menu.memory_bound += more;
        assert_eq!(whys_of_begun(&menu)[1], reason);
    }
}

#[test]
fn one_task_of_no_trays() {
    assert_eq!(whys_of_begun(&Menu::new(1, 0, &[(0, 0, 0)])), [Running]);
}

#[test]
fn the_largest_counts() {
    let most = 65_535;
    let mut records = vec![(1024, most, most); 1023];
    records.push((0, most, most));
    // Each leaf needs twice the most; 512 of them leave half a leaf's need.
    let peak = 1025 * u32::from(most);
    let (_, _, plan) = Menu::new(64, peak, &records).begun();
    let lacking = not_booked(513, most.into());
    for (task, reason) in [
        (1, Running),
        (64, Running),
        (65, NoProcessor),
        (512, NoProcessor),
        (513, lacking),
        (1024, lacking),
        (1025, Refused(4)),
    ] {
        assert_eq!(plan.why(task), reason, "{task}");
    }
    let (_, _, plan) = Menu::new(64, u32::MAX, &records).begun();
    assert_eq!([plan.why(1023), plan.why(1024)], [NoProcessor, Unfed(1)]);
}

#[test]
fn nothing_is_left_of_a_dropped_plan() {
    // A fourth step that feeds step 2, in a plan that is dropped.
    let records = [(3, 0, 0), (3, 0, 0), (0, 0, 0), (2, 9, 9)];
    let mut plan = Menu::new(1, 0, &records).given();
    let menu = Menu {
        processors: 1,
        memory_bound: 12,
        ..plan_a()
    };
    for command in menu.commands() {
        give(&mut plan, &command);
    }
    give(&mut plan, &[0x05]);
    assert_eq!(whys(&plan), [Running, NoProcessor, Unfed(1)]);
}
