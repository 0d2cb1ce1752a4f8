//! A plan without an execution order.

use crate::menu::{
    answers, ask, bytes_of, fetch, finish, give, hex, plan_a, plan_c, reading, refused_plans,
    written, Menu,
};
use crate::watch::follow;
use peer::generate::{encode, stream, Random};
use peer::{Command, Phase, Plan};

/// A plan with its activation order alone.
fn alone(menu: &Menu) -> Menu {
    Menu {
        execution: vec![],
        ..menu.clone()
    }
}

/// The same with that order written out for both.
fn twice(menu: &Menu) -> Menu {
    Menu {
        execution: menu.activation.clone(),
        ..menu.clone()
    }
}

/// Five tasks feed the sixth at one station, with room for all at once; the
/// orders differ in every place but the last.
fn star() -> Menu {
    let mut records = vec![(6, 1, 1); 5];
    records.push((0, 0, 0));
    Menu {
        activation: vec![4, 1, 5, 3, 2, 6],
        execution: vec![2, 5, 1, 4, 3, 6],
        ..Menu::new(1, 100, &records)
    }
}

fn one_task() -> Menu {
    Menu::new(1, 0, &[(0, 0, 0)])
}

fn begin(plan: &mut Plan) -> u8 {
    give(plan, &[0x05]).0.number
}

fn execute(plan: &mut Plan, task: u16) -> u8 {
    give(plan, &encode(Command::Execution(task))).0.number
}

/// The starts of a whole day.
fn starts(menu: &Menu) -> Vec<u16> {
    let (answer, starts, mut plan) = menu.begun();
    assert_eq!(answer.number, 0);
    finish(&mut plan, starts)
}

#[test]
fn the_activation_order_chooses() {
    assert_eq!(starts(&alone(&star())), star().activation);
    assert_eq!(starts(&twice(&star())), star().activation);
    // As before, an execution order that is there does.
    assert_eq!(starts(&star()), star().execution);
}

#[test]
fn several_start_in_activation_order() {
    let menu = Menu {
        processors: 4,
        ..alone(&star())
    };
    let (answer, starts, plan) = menu.begun();
    // The peak is where the fifth task runs: its need, and the outs of four.
    assert_eq!((answer.number, answer.used), (0, 1));
    assert_eq!((answer.peak, answer.peak_task), (6, 2));
    assert_eq!(starts, [4, 1, 5, 3]);
    assert_eq!(plan.standing(), [0, 2, 4, 0]);
}

/// Plans of generated streams, small and large, some of them refused by BEGIN.
fn menus() -> impl Iterator<Item = Menu> {
    let menu = |seed| follow(&stream(seed), |_, _| {}).0.menu();
    (7000..7200).filter_map(menu)
}

/// Gives BEGIN to two plans, reports while a task runs, and FETCH. Both answer
/// the same throughout. Tells how many commands they accepted.
fn check_same_day(random: &mut Random, mut one: Plan, mut other: Plan) -> usize {
    let mut command = Command::Begin;
    let (mut running, mut accepted) = (vec![], 0);
    loop {
        let (answer, starts) = give(&mut one, &encode(command));
        assert_eq!((answer, starts.clone()), give(&mut other, &encode(command)));
        if answer.number != 0 {
            return accepted;
        }
        accepted += 1;
        assert_eq!(answers(&one), answers(&other));
        running.extend(starts);
        command = match (command, one.phase()) {
            (_, Phase::Running) => Command::Done(running.swap_remove(random.below(running.len()))),
            (Command::Done(_), Phase::Ready) => Command::Fetch,
            (_, phase) => {
                assert_eq!(phase, Phase::Over);
                let [one, other] = [one, other].map(|plan| written(&plan, Plan::WRITTEN));
                assert_eq!(one, other);
                return accepted;
            }
        };
    }
}

#[test]
fn the_same_day_as_with_that_order_twice() {
    let (mut random, mut accepted, mut refused) = (Random::new(31), 0, 0);
    for menu in menus() {
        let of_day = check_same_day(&mut random, alone(&menu).given(), twice(&menu).given());
        accepted += of_day;
        refused += usize::from(of_day == 0);
    }
    assert!(accepted > 4000 && refused > 10, "{accepted} {refused}");
}

#[test]
fn what_is_written_has_the_same_day() {
    let (mut random, mut accepted) = (Random::new(32), 0);
    for menu in menus() {
        let (answer, _, plan) = alone(&menu).begun();
        if answer.number == 0 {
            let bytes = written(&plan, bytes_of(menu.records.len())).unwrap();
            assert_eq!(bytes, twice(&menu).commands().concat());
            accepted += check_same_day(&mut random, reading(&bytes), alone(&menu).given());
        }
    }
    assert!(accepted > 4000);
}

/// BEGIN after so many entries of each order.
fn begin_after(menu: &Menu, activation: usize, execution: usize) -> u8 {
    let part = Menu {
        activation: menu.activation[..activation].to_vec(),
        execution: menu.execution[..execution].to_vec(),
        ..menu.clone()
    };
    part.begun().0.number
}

#[test]
fn in_turn_with_none_or_all_of_the_entries() {
    for menu in [one_task(), plan_a(), plan_c(), star()] {
        let n = menu.records.len();
        for execution in 0..=n {
            for activation in 0..n {
                assert_eq!(begin_after(&menu, activation, execution), 3);
            }
            let wanted = if [0, n].contains(&execution) { 0 } else { 3 };
            assert_eq!(begin_after(&menu, n, execution), wanted, "{execution}");
        }
    }
}

#[test]
fn the_most_tasks() {
    let mut records = vec![(1024, 0, 0); 1023];
    records.push((0, 0, 0));
    let menu = Menu {
        activation: (1..1024).rev().chain([1024]).collect(),
        ..Menu::new(1, 0, &records)
    };
    for entries in [1, 2, 512, 1022, 1023] {
        assert_eq!(begin_after(&menu, 1024, entries), 3, "{entries}");
    }
    assert_eq!(begin_after(&menu, 1023, 0), 3);
    assert_eq!(starts(&alone(&menu)), menu.activation);
    assert_eq!(starts(&menu), menu.execution);
}

#[test]
fn a_single_task_with_and_without_its_entry() {
    for menu in [one_task(), alone(&one_task())] {
        let (answer, starts, mut plan) = menu.begun();
        assert_eq!((answer.number, starts), (0, vec![1]));
        assert_eq!(
            written(&plan, Plan::WRITTEN),
            Ok(one_task().commands().concat())
        );
        assert_eq!(execute(&mut plan, 1), 3);
        assert_eq!(finish(&mut plan, vec![1]), [1]);
    }
}

#[test]
fn a_refused_begin_fills_nothing_in() {
    for (menu, number) in refused_plans() {
        let n = menu.records.len();
        let mut plan = alone(&menu).given();
        for _ in 0..2 {
            assert_eq!(begin(&mut plan), number);
            assert_eq!(written(&plan, Plan::WRITTEN), Err(3));
        }
        let late: Vec<u16> = menu.activation.iter().rev().copied().collect();
        for (&task, given) in late.iter().zip(1..) {
            assert_eq!(execute(&mut plan, task), 0);
            if given < n {
                assert_eq!(begin(&mut plan), 3);
                assert_eq!(written(&plan, Plan::WRITTEN), Err(3));
                assert_eq!(execute(&mut plan, task), 5);
            }
        }
        // The order that came late is the plan's, whatever BEGIN answers.
        assert_eq!(begin(&mut plan), number);
        assert_eq!(execute(&mut plan, 1), 3);
        let menu = Menu {
            execution: late,
            ..menu
        };
        assert_eq!(written(&plan, Plan::WRITTEN), Ok(menu.commands().concat()));
    }
}

#[test]
fn other_refusals_of_begin_fill_nothing_in() {
    let mut plan = alone(&star()).given();
    assert_eq!(ask(&mut plan, &[0x05], 0, 63).0.number, 10);
    assert_eq!(ask(&mut plan, &[0x05], 1, 64).0.number, 1);
    assert_eq!(written(&plan, Plan::WRITTEN), Err(3));
    for (&task, given) in star().execution.iter().zip(1..) {
        assert_eq!(execute(&mut plan, task), 0);
        let wanted = if given < 6 { 3 } else { 0 };
        assert_eq!(begin(&mut plan), wanted);
    }
    assert_eq!(finish(&mut plan, vec![2]), star().execution);
}

/// Plan A with activation order 2, 1, 3, which is written twice.
const BYTES: &str = "
    01 03 00 02 07 00 00 00
    02 03 00 05 00 01 00 02 03 00 05 00 01 00 02 00 00 00 00 01 00
    03 02 00 03 01 00 03 03 00
    04 02 00 04 01 00 04 03 00";

#[test]
fn written_once_it_has_begun() {
    let menu = Menu {
        activation: vec![2, 1, 3],
        ..alone(&plan_a())
    };
    let mut plan = menu.given();
    for list_len in [0, 46, 47, Plan::WRITTEN] {
        assert_eq!(written(&plan, list_len), Err(3), "{list_len}");
    }
    assert_eq!(begin(&mut plan), 0);
    for task in [2, 1, 3] {
        assert_eq!(plan.phase(), Phase::Running);
        check_written(&plan);
        assert_eq!(give(&mut plan, &encode(Command::Done(task))).0.number, 0);
    }
    assert_eq!(plan.phase(), Phase::Ready);
    check_written(&plan);
    fetch(&mut plan);
    assert_eq!(plan.phase(), Phase::Over);
    check_written(&plan);
}

fn check_written(plan: &Plan) {
    for list_len in [47, 48, Plan::WRITTEN] {
        assert_eq!(written(plan, list_len), Ok(hex(BYTES)), "{list_len}");
    }
    for list_len in [0, 38, 46] {
        assert_eq!(written(plan, list_len), Err(11), "{list_len}");
    }
}

#[test]
fn no_entry_is_in_turn_after_it_has_begun() {
    let (_, starts, mut plan) = alone(&star()).begun();
    let check = |plan: &mut Plan| {
        for text in [
            "03 01 00", "04 01 00", "04 06 00", "04 00 00", "04 07 00", "05",
        ] {
            assert_eq!(give(plan, &hex(text)).0.number, 3, "{text}");
        }
    };
    check(&mut plan);
    finish(&mut plan, starts);
    assert_eq!(plan.phase(), Phase::Ready);
    check(&mut plan);
    fetch(&mut plan);
    assert_eq!(plan.phase(), Phase::Over);
    check(&mut plan);
}

/// Gives a plan its next one, and runs that one's day: all its starts.
fn next_day(plan: &mut Plan, menu: &Menu) -> Vec<u16> {
    for command in menu.commands() {
        assert_eq!(give(plan, &command).0.number, 0);
    }
    let has_both = !menu.execution.is_empty();
    assert_eq!(written(plan, Plan::WRITTEN).is_ok(), has_both);
    let (answer, starts) = give(plan, &[0x05]);
    assert_eq!(answer.number, 0);
    let started = finish(plan, starts);
    fetch(plan);
    started
}

#[test]
fn the_next_plan_has_none_again() {
    let other = Menu {
        activation: vec![3, 2, 1, 5, 4, 6],
        ..alone(&star())
    };
    for mut plan in [alone(&star()).over(), star().given()] {
        assert_eq!(next_day(&mut plan, &other), other.activation);
        assert_eq!(next_day(&mut plan, &alone(&star())), star().activation);
        assert_eq!(next_day(&mut plan, &star()), star().execution);
        assert_eq!(next_day(&mut plan, &other), other.activation);
    }
}
