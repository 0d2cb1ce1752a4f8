//! Orders found for the largest plans.

use crate::menu::{accepting, found, Menu};
use crate::postorder::{index, is_asked_for, peak};
use peer::generate::{Random, Shape};
use peer::Plan;
use std::cmp::Reverse;

const MOST: u16 = Plan::TASKS as u16;

/// A step with these numbers: parent, work, out.
type Step = (u16, u16, u16);

/// The plan of these steps.
fn given(records: &[Step]) -> Plan {
    accepting(&Menu::new(1, 0, records).steps())
}

/// The order of the largest plan, and its peak.
fn order(records: &[Step]) -> (Vec<u16>, u32) {
    let plan = given(records);
    let order = found(&plan, records.len()).unwrap();
    assert_eq!(found(&plan, records.len() - 1), Err(11));
    assert_eq!(found(&plan, records.len() + 1), Ok(order.clone()));
    let records = Menu::new(1, 0, records).records;
    assert!(is_asked_for(&records, &order));
    let peak = peak(&records, &order);
    (order, peak)
}

fn steps(step: impl Fn(u16) -> Step) -> Vec<Step> {
    (1..=MOST).map(step).collect()
}

#[test]
fn chains() {
    let rising = steps(|task| ((task + 1) % (MOST + 1), 65_535, 65_535));
    assert_eq!(order(&rising), ((1..=MOST).collect(), 3 * 65_535));
    let falling = steps(|task| (task - 1, 1, 2));
    assert_eq!(order(&falling), ((1..=MOST).rev().collect(), 5));
}

#[test]
fn stars() {
    let all_but_root = 1..MOST;
    let star = |step: fn(u16) -> (u16, u16)| {
        let mut records = steps(|task| (MOST, step(task).0, step(task).1));
        records[index(MOST)] = (0, 65_535, 65_535);
        order(&records)
    };
    let largest = star(|_| (65_535, 65_535));
    assert_eq!(largest, ((1..=MOST).collect(), 1025 * 65_535));
    let (rising, _) = star(|task| (task, 7));
    assert!(rising.into_iter().eq(all_but_root.rev().chain([MOST])));
    let (falling, _) = star(|task| (MOST - task, task));
    assert!(falling.into_iter().eq(1..=MOST));
    let (two_works, _) = star(|task| (task % 2, task));
    let (odd, even) = ((1..MOST).step_by(2), (2..=MOST).step_by(2));
    assert!(two_works.into_iter().eq(odd.chain(even)));
    let root_first = steps(|task| (u16::from(task != 1), 3, 1));
    let (root_last, peak) = order(&root_first);
    assert!(root_last.into_iter().eq((2..=MOST).chain([1])));
    assert_eq!(peak, 1023 + 4);
}

/// Two stars side by side, so many leaves in the first and all others in the second:
/// the one with more leaves comes first.
#[test]
fn two_stars() {
    let centers = [MOST - 2, MOST - 1];
    for leaves in [0, 1, 8, 16, 17, 256, 257, 424, 510, 511, 700, 1005, 1021] {
        let records = steps(|task| {
            let parent = match task {
                MOST => 0,
                _ if centers.contains(&task) => MOST,
                _ => centers[usize::from(task > leaves)],
            };
            (parent, 65_535, 65_535)
        });
        let first: Vec<u16> = (1..=leaves).chain([centers[0]]).collect();
        let second: Vec<u16> = (leaves + 1..centers[0]).chain([centers[1]]).collect();
        let mut stars = [first, second];
        stars.sort_by_key(|star| Reverse(star.len()));
        // The outs of the leaves, and work and out of the center.
        let peak = (stars[0].len() as u32 + 1) * 65_535;
        let wanted = [&stars[0][..], &stars[1], &[MOST]].concat();
        assert_eq!(order(&records), (wanted, peak), "{leaves}");
    }
}

/// The last of 1,021 leaves sets the peak of a star: 1,020 outs and its need.
#[test]
fn the_last_leaf_of_a_star_sets_its_peak() {
    let (center, beside) = (MOST - 2, MOST - 1);
    for (work, is_first) in [(1020 + 101, false), (1020 + 102, true)] {
        let records = steps(|task| match task {
            MOST => (0, 0, 0),
            _ if task == beside => (MOST, work, 0),
            _ if task == center => (MOST, 0, 0),
            _ => (center, 100, 1),
        });
        let (order, peak) = order(&records);
        assert_eq!(order[0] == beside, is_first);
        assert_eq!(peak, work.into());
    }
}

/// A chain whose lowest step has work 100, and a leaf hung on it. Step 1 is the root,
/// so that the leaf feeds the step with the number of its depth.
#[test]
fn a_leaf_on_a_chain() {
    let (lowest, leaf) = (MOST - 1, MOST);
    for depth in [1, 512, 700, 1022] {
        for (work, peak) in [(99, 101), (100, 102), (101, 102)] {
            let mut records = steps(|task| (task - 1, 0, 1));
            records[index(lowest)].1 = 100;
            records[index(leaf)] = (depth, work, 1);
            let mut wanted: Vec<u16> = (1..=lowest).rev().collect();
            // Ahead of the chain below its parent, or behind it.
            let place = if work > 100 { 0 } else { lowest - depth };
            wanted.insert(place.into(), leaf);
            assert_eq!(order(&records), (wanted, peak), "{depth} {work}");
        }
    }
}

#[test]
fn trees_of_all_shapes() {
    let mut random = Random::new(61);
    for shape in [
        Shape::Random,
        Shape::Deep,
        Shape::Caterpillar,
        Shape::Binary,
        Shape::Broom,
        Shape::Stars {
            centers: 2,
            to_first: 40,
        },
        Shape::Stars {
            centers: 8,
            to_first: 0,
        },
        Shape::Spine { leaves: 30 },
    ] {
        for most in [1, 3, 65_535] {
            let parents = shape.parents(&mut random, MOST.into());
            let mut count = || random.between(0, most) as u16;
            let records = parents.into_iter().map(|parent| (parent, count(), count()));
            order(&records.collect::<Vec<_>>());
        }
    }
}

#[test]
fn the_longest_cycles() {
    let check = |records: &[Step], number| {
        for list_len in [0, 1023, 1024, 1025] {
            assert_eq!(found(&given(records), list_len), Err(number));
        }
    };
    let round = steps(|task| (task % MOST + 1, 1, 1));
    check(&round, 7);
    // One beside the root, all others in a cycle.
    let mut beside = steps(|task| (task % (MOST - 1) + 1, 1, 1));
    beside[index(MOST)].0 = 0;
    check(&beside, 12);
    // All others in a chain up to one that feeds itself.
    let mut up = steps(|task| (task + 1, 1, 1));
    up[index(MOST - 1)].0 = MOST - 1;
    up[index(MOST)].0 = 0;
    check(&up, 12);
    // One alone feeds itself.
    let mut alone = steps(|_| (MOST, 1, 1));
    alone[0].0 = 1;
    alone[index(MOST)].0 = 0;
    check(&alone, 12);
}
