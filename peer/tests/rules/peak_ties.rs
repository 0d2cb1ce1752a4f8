//! Plans made so that certain tasks all set the peak, of any size and shape.

use crate::menu::{refused, Menu};
use crate::peak_sums::{peak_and_equals, sums};
use peer::generate::{activation_order, Random, Shape};
use peer::{desk_peak, Plan, Record};

/// A plan and the tasks that have its peak, in its activation order.
pub struct Tied {
    pub menu: Menu,
    pub peak: u32,
    pub tasks: Vec<u16>,
}

/// A plan of n tasks in which some all have the peak. A task's work counts in its
/// own sum alone, and so raises it as far as is wanted.
pub fn tied(random: &mut Random, n: usize) -> Tied {
    let mut records = tree(random, n);
    let activation = activation_order(random, &records);
    let sums = sums(&records, &activation);
    let peak = sums.iter().max().unwrap() + random.between(1, 3);
    let is_tied = choice(random, n);
    let mut raise = |place: usize, to: u32| {
        let raised = &mut records[usize::from(activation[place]) - 1];
        raised.work += (to - sums[place]) as u16;
    };
    for (place, &is_tied) in is_tied.iter().enumerate() {
        if is_tied {
            raise(place, peak);
        } else if random.chance(30) {
            raise(place, peak - 1);
        }
    }
    let tasks = activation.iter().zip(is_tied).filter(|tied| tied.1);
    Tied {
        peak,
        tasks: tasks.map(|(&task, _)| task).collect(),
        menu: Menu {
            processors: random.between(1, 64) as u8,
            memory_bound: peak + random.pick(&[0, 0, 1, 100]),
            execution: any_order(random, n),
            records,
            activation,
        },
    }
}

/// Which places of an order share the peak: one, two, both ends, many or all.
fn choice(random: &mut Random, n: usize) -> Vec<bool> {
    let mut is_tied = vec![false; n];
    match random.between(0, 5) {
        0 => {
            is_tied[0] = true;
            is_tied[n - 1] = true;
        }
        1 => is_tied.fill(true),
        2 => is_tied.fill_with(|| random.chance(50)),
        _ => is_tied[random.below(n)] = true,
    }
    is_tied[random.below(n)] = true;
    is_tied
}

/// All tasks in any order.
fn any_order(random: &mut Random, n: usize) -> Vec<u16> {
    let mut order: Vec<u16> = (1..=n as u16).collect();
    random.shuffle(&mut order);
    order
}

/// A tree of any shape with small counts.
fn tree(random: &mut Random, n: usize) -> Vec<Record> {
    let most = random.pick(&[0, 1, 3, 20]);
    let parents = Shape::random(random).parents(random, n);
    let records = parents.into_iter().map(|parent| {
        let [work, out] = [most; 2].map(|most| random.between(0, most) as u16);
        Record { parent, work, out }
    });
    records.collect()
}

/// Checks BEGIN and the desk; the ties are those that were made.
fn check(tied: &Tied) {
    let Tied { menu, peak, tasks } = tied;
    let equals = peak_and_equals(&menu.records, &menu.activation);
    assert_eq!(equals, (*peak, tasks.clone()));
    let desk = desk_peak(&menu.records, &menu.activation);
    let wanted = (0, *peak, tasks[0]);
    assert_eq!((desk.number, desk.peak, desk.peak_task), wanted);
    let (answer, ..) = menu.begun();
    assert_eq!((answer.number, answer.peak, answer.peak_task), wanted);
    let below = Menu {
        memory_bound: peak - 1,
        ..menu.clone()
    };
    assert_eq!(below.begun().0, refused(9));
}

#[test]
fn small_plans() {
    let mut random = Random::new(71);
    for n in 1..=40 {
        for _ in 0..50 {
            check(&tied(&mut random, n));
        }
    }
}

#[test]
fn large_plans() {
    let mut random = Random::new(72);
    for _ in 0..60 {
        let n = random.between(41, 1024) as usize;
        check(&tied(&mut random, n));
    }
    for _ in 0..15 {
        check(&tied(&mut random, Plan::TASKS));
    }
}

#[test]
fn ties_of_every_kind() {
    let mut seen = crate::generator::Seen::default();
    let mut random = Random::new(73);
    for _ in 0..1000 {
        let n = random.between(2, 40) as usize;
        let Tied { menu, tasks, .. } = tied(&mut random, n);
        seen.note(match tasks.len() {
            1 => "one",
            2 => "two",
            count if count == n => "all",
            _ => "several",
        });
        if tasks.iter().min() != tasks.first() {
            seen.note("the earliest is not the lowest number");
        }
        if tasks.len() > 1 && tasks.last() == menu.activation.last() {
            seen.note("the root is one of them");
        }
        if tasks[0] != menu.activation[0] {
            seen.note("the earliest is not the first of the order");
        }
        let execution = menu.execution.iter();
        if execution.copied().find(|task| tasks.contains(task)) != Some(tasks[0]) {
            seen.note("another is earlier in the execution order");
        }
    }
    seen.check(&[
        ("one", 20),
        ("two", 400),
        ("several", 150),
        ("all", 150),
        ("the earliest is not the lowest number", 400),
        ("the root is one of them", 300),
        ("the earliest is not the first of the order", 400),
        ("another is earlier in the execution order", 400),
    ]);
}
