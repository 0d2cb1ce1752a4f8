//! Plans written back out at any moment, small and large, as generated streams
//! lead to them.

use crate::menu::{answers, ask, reading, written, Menu};
use crate::watch::{follow, Watch};
use peer::generate::{cut_stream, stream, Random};
use peer::{decode, Command, Phase, Plan};
use std::collections::BTreeMap;

/// A plan up to this size is written after each command.
const SMALL: usize = 40;

/// A larger one after one of so many.
const STRIDE: usize = 50;

/// What has to be written of a plan, by what was seen of its commands.
fn wanted(watch: &Watch) -> Result<Vec<u8>, u8> {
    watch.menu().map(|menu| menu.commands().concat()).ok_or(3)
}

#[test]
fn after_each_command_of_a_stream() {
    for stream in (4000..4120).map(stream) {
        let mut commands = 0;
        follow(&stream, |watch, plan| {
            commands += 1;
            if watch.records.len() <= SMALL || commands % STRIDE == 0 {
                assert_eq!(written(plan, Plan::WRITTEN), wanted(watch));
            }
        });
    }
}

/// When a plan is written; the number refused the next command.
fn moment(plan: &Plan, number: u8) -> &'static str {
    match (plan.phase(), number) {
        (Phase::Orders, 7..=9) => "a refused BEGIN",
        (Phase::Orders, _) => "ahead of BEGIN",
        (Phase::Running, _) => "running",
        (Phase::Ready, _) => "ready",
        (Phase::Over, _) => "over",
        (phase, _) => panic!("written in {phase:?}"),
    }
}

/// Checks that what is written of a plan restores it.
fn check_restored(plan: &Plan, bytes: &[u8]) {
    assert_eq!(written(plan, bytes.len()), Ok(bytes.to_vec()));
    assert_eq!(written(plan, bytes.len() - 1), Err(11));
    let restored = reading(bytes);
    assert_eq!(restored.phase(), Phase::Orders);
    assert_eq!(written(&restored, bytes.len()), Ok(bytes.to_vec()));
}

#[test]
fn streams_cut_anywhere() {
    let mut seen: BTreeMap<&str, usize> = BTreeMap::new();
    for stream in (5000..5600).map(cut_stream) {
        let (watch, plan, number) = follow(&stream, |_, _| {});
        let bytes = written(&plan, Plan::WRITTEN);
        assert_eq!(bytes, wanted(&watch));
        if let Ok(bytes) = bytes {
            check_restored(&plan, &bytes);
            *seen.entry(moment(&plan, number)).or_default() += 1;
        }
    }
    assert_eq!(seen.len(), 5, "{seen:?}");
    assert!(seen.values().all(|&count| count > 15), "{seen:?}");
}

/// Whether BEGIN comes next in a stream.
fn begins(stream: &[u8], place: usize) -> bool {
    decode(stream, place).is_ok_and(|(command, _)| command == Command::Begin)
}

/// Gives a plan the commands of a stream. Where it is about to begin it is
/// written, and one restored from that gets the same commands from there on.
/// Answers how many both have accepted.
fn check_twin(stream: &[u8]) -> usize {
    let (mut plan, mut twin) = (Plan::new(), None);
    let (mut place, mut accepted) = (0, 0);
    loop {
        if plan.phase() == Phase::Orders && begins(stream, place) {
            let bytes = written(&plan, Plan::WRITTEN).ok();
            twin = bytes.map(|bytes| reading(&bytes));
        }
        let (answer, starts) = ask(&mut plan, stream, place, Plan::STARTS);
        if let Some(twin) = &mut twin {
            let of_twin = ask(twin, stream, place, Plan::STARTS);
            assert_eq!(of_twin, (answer, starts));
            assert_eq!(answers(twin), answers(&plan));
            accepted += usize::from(answer.number == 0);
        }
        if answer.number != 0 {
            return accepted;
        }
        place += answer.used;
    }
}

#[test]
fn a_restored_plan_has_the_same_day() {
    let streams = (4500..4580).map(stream);
    let accepted: usize = streams.map(|stream| check_twin(&stream)).sum();
    assert!(accepted > 2000);
}

/// Changes one number of a plan, or has two entries of an order change places.
fn change(random: &mut Random, menu: &mut Menu) {
    let n = menu.records.len();
    let (task, other) = (random.below(n), random.below(n));
    let (of_16, of_32) = (1 << random.below(16), 1 << random.below(32));
    match random.between(0, 6) {
        0 => menu.processors = random.between(1, 64) as u8,
        1 => menu.memory_bound ^= of_32,
        2 => menu.records[task].parent = random.between(0, n as u32) as u16,
        3 => menu.records[task].work ^= of_16,
        4 => menu.records[task].out ^= of_16,
        5 => menu.activation.swap(task, other),
        _ => menu.execution.swap(task, other),
    }
}

#[test]
fn alike_only_if_they_are_the_same() {
    let (mut random, mut changed) = (Random::new(21), 0);
    for stream in (4600..4800).map(cut_stream) {
        let (watch, plan, _) = follow(&stream, |_, _| {});
        let Some(menu) = watch.menu() else {
            continue;
        };
        let mut other = menu.clone();
        change(&mut random, &mut other);
        let [one, two] = [&plan, &other.given()].map(|plan| written(plan, Plan::WRITTEN));
        assert_eq!(one == two, menu == other);
        changed += usize::from(menu != other);
    }
    assert!(changed > 70);
}
