//! Orders found at any moment, as generated commands lead to it, and for generated
//! steps.

use crate::menu::{ask, found, give};
use crate::postorder::{ground, is_asked_for, peak};
use crate::watch::{follow, Watch};
use peer::generate::{askings, cut_stream, encode, steps_only, stream, Random};
use peer::{decode, Command, Phase, Plan, Record};
use std::collections::BTreeMap;

/// A plan up to this size is asked after each command.
const SMALL: usize = 12;

/// Checks what is found for the steps of a plan of n, so far as they are given;
/// answers the number.
fn check(plan: &Plan, n: usize, records: &[Record]) -> u8 {
    let order = found(plan, Plan::TASKS);
    match (&order, ground(n, records)) {
        (Err(number), Some(ground)) => {
            assert_eq!(*number, ground);
            assert_eq!(found(plan, 0), order);
        }
        (Ok(tasks), None) => {
            assert!(is_asked_for(records, tasks), "{records:?}: {tasks:?}");
            assert_eq!(found(plan, n), order);
            assert_eq!(found(plan, n - 1), Err(11));
        }
        (_, ground) => panic!("{order:?} with ground {ground:?}"),
    }
    order.err().unwrap_or(0)
}

fn check_watched(watch: &Watch, plan: &Plan) -> u8 {
    check(plan, watch.tasks, &watch.records)
}

#[test]
fn after_each_command_of_a_stream() {
    for stream in (7000..7060).map(stream) {
        follow(&stream, |watch, plan| {
            if watch.tasks <= SMALL {
                check_watched(watch, plan);
            }
        });
    }
}

#[test]
fn streams_cut_anywhere() {
    let mut seen: BTreeMap<(u8, &str), usize> = BTreeMap::new();
    for stream in (7100..7300).map(cut_stream) {
        let (watch, plan, _) = follow(&stream, |_, _| {});
        let number = check_watched(&watch, &plan);
        *seen.entry((number, phase(&plan))).or_default() += 1;
    }
    for phase in ["orders", "running", "ready", "over"] {
        assert!(seen.get(&(0, phase)) > Some(&8), "{phase}: {seen:?}");
    }
    assert!(seen.get(&(3, "steps")) > Some(&8), "{seen:?}");
}

fn phase(plan: &Plan) -> &'static str {
    match plan.phase() {
        Phase::Empty => "empty",
        Phase::Steps => "steps",
        Phase::Orders => "orders",
        Phase::Running => "running",
        Phase::Ready => "ready",
        Phase::Over => "over",
    }
}

/// A refused command, and one that opens no plan and gives no step, leaves the
/// order as it was.
#[test]
fn only_plans_and_steps_change_it() {
    let mut kept = 0;
    for list in (7400..7412).map(askings) {
        let mut plan = Plan::new();
        for asking in list {
            let before = found(&plan, SMALL);
            let (answer, _) = ask(&mut plan, &asking.bytes, asking.place, asking.starts_len);
            let command = decode(&asking.bytes, asking.place).map(|(command, _)| command);
            let changes = matches!(command, Ok(Command::Plan { .. } | Command::Step(_)));
            if answer.number != 0 || !changes {
                assert_eq!(found(&plan, SMALL), before);
                kept += usize::from(before.is_ok());
            }
        }
    }
    assert!(kept > 200, "{kept}");
}

/// What a stream of steps alone leads to.
fn generated(seed: u64) -> (Plan, Watch) {
    let stream = steps_only(&mut Random::new(seed));
    let (mut plan, mut watch) = (Plan::new(), Watch::default());
    let (mut place, mut starts) = (0, [0; Plan::STARTS]);
    while place < stream.len() {
        let answer = plan.command(&stream, place, &mut starts);
        assert_eq!(answer.number, 0);
        watch.accepted(&stream, place, &answer, &[]);
        place += answer.used;
    }
    (plan, watch)
}

#[test]
fn for_generated_steps() {
    let mut seen = [0; 13];
    for (plan, watch) in (0..600).map(generated) {
        seen[usize::from(check_watched(&watch, &plan))] += 1;
    }
    assert!(seen[0] > 200 && seen[7] > 60 && seen[12] > 60, "{seen:?}");
}

#[test]
fn begin_is_refused_9_only_above_the_peak() {
    let (mut fits, mut above) = (0, 0);
    for (plan, watch) in (600..900).map(generated) {
        let Ok(order) = found(&plan, Plan::TASKS) else {
            continue;
        };
        let mut plan = plan;
        for &task in &order {
            give_blindly(&mut plan, Command::Activation(task));
        }
        let number = give(&mut plan, &encode(Command::Begin)).0.number;
        if peak(&watch.records, &order) <= watch.memory_bound {
            assert_eq!((number, plan.phase()), (0, Phase::Running));
            fits += 1;
        } else {
            assert_eq!((number, plan.phase()), (9, Phase::Orders));
            above += 1;
        }
    }
    assert!(fits > 50 && above > 20, "{fits} {above}");
}

/// Gives a command that must be accepted, and asks nothing else.
fn give_blindly(plan: &mut Plan, command: Command) {
    let answer = plan.command(&encode(command), 0, &mut [0; Plan::STARTS]);
    assert_eq!(answer.number, 0);
}
