//! The generator of steps alone: the same bytes for the same seed, and every kind
//! of tree and of flaw.

use crate::generator::Seen;
use crate::postorder::ground;
use peer::generate::{steps_only, Random};
use peer::{decode, needs, Command, Record};

/// The steps of a seed, and n of their PLAN.
fn steps(seed: u64) -> (u16, Vec<Record>) {
    let stream = steps_only(&mut Random::new(seed));
    let Ok((Command::Plan { tasks, .. }, mut place)) = decode(&stream, 0) else {
        panic!("no PLAN");
    };
    let mut records = Vec::new();
    while place < stream.len() {
        let Ok((Command::Step(record), used)) = decode(&stream, place) else {
            panic!("no STEP at {place}");
        };
        records.push(record);
        place += used;
    }
    (tasks, records)
}

#[test]
fn the_same_seed_gives_the_same_bytes() {
    let bytes = |seed| steps_only(&mut Random::new(seed));
    assert!((0..20).all(|seed| bytes(seed) == bytes(seed)));
    assert_ne!(bytes(1), bytes(2));
}

#[test]
fn a_plan_and_all_its_steps() {
    for (tasks, records) in (0..300).map(steps) {
        assert_eq!(records.len(), usize::from(tasks));
        assert!(records.iter().all(|record| record.parent <= tasks));
    }
}

/// The parent of a task at an index.
fn above(records: &[Record], task: usize) -> Option<usize> {
    usize::from(records[task].parent).checked_sub(1)
}

/// How many moves up the chain of parents lead back to a task for the first time.
fn round(records: &[Record], task: usize) -> Option<usize> {
    let mut at = task;
    for moves in 1..=records.len() {
        at = above(records, at)?;
        if at == task {
            return Some(moves);
        }
    }
    None
}

/// Whether the chain of parents from a task on never ends.
fn goes_on(records: &[Record], task: usize) -> bool {
    let mut at = Some(task);
    for _ in 0..records.len() {
        at = at.and_then(|at| above(records, at));
    }
    at.is_some()
}

/// The kind of these steps.
fn kind(records: &[Record]) -> &'static str {
    let roots = records.iter().filter(|record| record.parent == 0).count();
    let astray = (0..records.len()).filter(|&task| goes_on(records, task));
    match (roots, astray.count()) {
        (1, 0) => "a tree",
        (1, count) if count + 1 == records.len() => "one root, all others astray",
        (1, _) => "one root, some astray",
        (0, _) => "no root",
        (_, 0) => "more roots",
        _ => "more roots, some astray",
    }
}

/// The longest cycle among these steps.
fn cycle(records: &[Record]) -> &'static str {
    let cycles = (0..records.len()).filter_map(|task| round(records, task));
    match cycles.max() {
        None => "no cycle",
        Some(1) => "a step that feeds itself",
        Some(2) => "two that feed each other",
        Some(3..=9) => "a cycle",
        Some(_) => "a long cycle",
    }
}

/// Larger plans take too long to look for cycles.
const LARGE: usize = 300;

#[test]
fn every_kind_of_tree_and_flaw() {
    let mut seen = Seen::default();
    for (_, records) in (0..1500).map(steps) {
        match records.len() {
            1 => seen.note("one step"),
            2..LARGE => {}
            1024 => seen.note("the most steps"),
            _ => seen.note("many steps"),
        }
        if records.len() < LARGE {
            seen.note(kind(&records));
            seen.note(cycle(&records));
        }
    }
    seen.check(&[
        ("one step", 80),
        ("many steps", 20),
        ("the most steps", 5),
        ("a tree", 600),
        ("one root, some astray", 120),
        ("one root, all others astray", 30),
        ("no root", 150),
        ("more roots", 60),
        ("more roots, some astray", 30),
        ("a step that feeds itself", 100),
        ("two that feed each other", 60),
        ("a cycle", 80),
        ("a long cycle", 20),
    ]);
}

/// The indices of the children of each task.
fn children(records: &[Record]) -> Vec<Vec<usize>> {
    let mut children = vec![Vec::new(); records.len()];
    for task in 0..records.len() {
        if let Some(parent) = above(records, task) {
            children[parent].push(task);
        }
    }
    children
}

/// Whether siblings have more than so many children each.
fn are_wide(children: &[Vec<usize>], most: usize) -> bool {
    let is_wide = |&&task: &&usize| children[task].len() > most;
    let wide = |siblings: &Vec<usize>| siblings.iter().filter(is_wide).count();
    children.iter().any(|siblings| wide(siblings) > 1)
}

/// How far below the root the deepest siblings of a tree are; 0 if there are none.
fn depth_of_siblings(children: &[Vec<usize>], root: usize) -> usize {
    let mut deepest = 0;
    // The tasks one level above that depth.
    let mut level = vec![root];
    for depth in 1..=children.len() {
        if level.iter().any(|&task| children[task].len() > 1) {
            deepest = depth;
        }
        level = level
            .iter()
            .flat_map(|&task| children[task].iter().copied())
            .collect();
    }
    deepest
}

/// The largest (need less out) of tasks that have siblings; the (subtree peak less
/// out) of that task is no lower. 0 if there are none.
fn need_less_out_of_siblings(records: &[Record], children: &[Vec<usize>]) -> u32 {
    let needs = needs(records);
    let siblings = children.iter().filter(|siblings| siblings.len() > 1);
    siblings
        .flatten()
        .map(|&task| needs[task] - u32::from(records[task].out))
        .max()
        .unwrap_or(0)
}

#[test]
fn siblings_with_large_subtrees() {
    let mut seen = Seen::default();
    for (_, records) in (2000..4000).map(steps) {
        if ground(records.len(), &records).is_some() {
            continue;
        }
        let children = children(&records);
        let root = records.iter().position(|record| record.parent == 0);
        let depth = depth_of_siblings(&children, root.unwrap());
        let peak_less_out = need_less_out_of_siblings(&records, &children);
        for (way, is_so) in [
            ("more than 16 children each", are_wide(&children, 16)),
            ("more than 256 children each", are_wide(&children, 256)),
            ("512 below the root", depth >= 512),
            ("700 below the root", depth >= 700),
            ("peak less out above 2^24", peak_less_out > 1 << 24),
            ("peak less out above 2^25", peak_less_out > 1 << 25),
        ] {
            if is_so {
                seen.note(way);
            }
        }
    }
    seen.check(&[
        ("more than 16 children each", 60),
        ("more than 256 children each", 15),
        ("512 below the root", 30),
        ("700 below the root", 10),
        ("peak less out above 2^24", 12),
        ("peak less out above 2^25", 4),
    ]);
}
