//! The desk's peak by the peer, with its task: records and an activation list,
//! good ones and ones with a few flaws.

use crate::tool::{last_plan, Tool};
use peer::generate::Random;
use peer::{Command, Plan, Record};

/// What the desk is asked. Both lists are only read.
#[derive(Clone, Debug, PartialEq)]
pub struct Lists {
    pub records: Vec<Record>,
    pub activation: Vec<u16>,
}

/// The desk's peak.
pub struct Desk;

impl Tool for Desk {
    type Lent = Lists;

    /// The number, the peak and its task.
    const NUMBERS: usize = 3;

    fn lend(random: &mut Random, commands: &[u8]) -> Lists {
        let given = if random.chance(50) {
            of_commands(commands)
        } else {
            good(random)
        };
        with_flaws(random, given)
    }

    fn answer(_commands: &[u8], lent: &mut Lists) -> Vec<u64> {
        let answer = peer::desk_peak(&lent.records, &lent.activation);
        vec![
            answer.number.into(),
            answer.peak.into(),
            answer.peak_task.into(),
        ]
    }
}

/// The tasks and the activation order of the last plan, as far as given.
pub fn of_commands(commands: &[u8]) -> Lists {
    let mut given = Lists {
        records: Vec::new(),
        activation: Vec::new(),
    };
    for command in last_plan(commands) {
        match command {
            Command::Step(record) => given.records.push(record),
            Command::Activation(task) => given.activation.push(task),
            _ => {}
        }
    }
    given
}

/// Those of a plan whose orders are both complete.
pub fn of_plan(plan: &Plan) -> Lists {
    let mut written = vec![0; Plan::WRITTEN];
    let count = plan.write(&mut written).count;
    of_commands(&written[..count])
}

/// Lists with no flaw put into them in one case of three.
fn with_flaws(random: &mut Random, mut given: Lists) -> Lists {
    if !random.chance(33) {
        for _ in 0..random.between(1, 3) {
            spoil(random, &mut given);
        }
    }
    given
}

/// How many tasks: few, some, or about as many as a plan may have.
fn size(random: &mut Random) -> usize {
    let (low, high) = match random.between(0, 99) {
        0..=79 => (1, 12),
        80..=93 => (13, 80),
        94..=97 => (1020, 1024),
        _ => (1025, 1030),
    };
    random.between(low, high) as usize
}

/// A tree whose tasks stand before their parents.
fn good(random: &mut Random) -> Lists {
    let tasks = size(random);
    let largest = random.pick(&[0, 3, 1000, 65_535]);
    let mut activation: Vec<u16> = (1..=tasks as u16).collect();
    random.shuffle(&mut activation);
    let mut records = vec![Record::default(); tasks];
    for place in 0..tasks {
        let later = &activation[place + 1..];
        let parent = if later.is_empty() {
            0
        } else {
            later[random.below(later.len())]
        };
        records[usize::from(activation[place]) - 1] = Record {
            parent,
            work: random.between(0, largest) as u16,
            out: random.between(0, largest) as u16,
        };
    }
    Lists {
        records,
        activation,
    }
}

/// One flaw, or something that looks like one.
fn spoil(random: &mut Random, given: &mut Lists) {
    let most = given.records.len() as u32 + 1;
    match random.between(0, 8) {
        0 => set_parent(random, given, most),
        1 => set_parent(random, given, 0),
        2 => set_entry(random, given, most),
        3 => repeat_entry(random, given),
        4 => swap_entries(random, given),
        5 => {
            given.records.pop();
        }
        6 => {
            given.activation.pop();
        }
        7 => given.activation.push(random.between(0, most) as u16),
        _ => given.records.push(Record {
            parent: random.between(0, most) as u16,
            work: 1,
            out: 1,
        }),
    }
}

/// A record gets a parent from 0 to a number.
fn set_parent(random: &mut Random, given: &mut Lists, most: u32) {
    if !given.records.is_empty() {
        let place = random.below(given.records.len());
        given.records[place].parent = random.between(0, most) as u16;
    }
}

/// An entry becomes one from 0 to a number.
fn set_entry(random: &mut Random, given: &mut Lists, most: u32) {
    if !given.activation.is_empty() {
        let place = random.below(given.activation.len());
        given.activation[place] = random.between(0, most) as u16;
    }
}

/// An entry becomes the same as another.
fn repeat_entry(random: &mut Random, given: &mut Lists) {
    if !given.activation.is_empty() {
        let from = random.below(given.activation.len());
        let to = random.below(given.activation.len());
        given.activation[to] = given.activation[from];
    }
}

/// Two entries change places.
fn swap_entries(random: &mut Random, given: &mut Lists) {
    if !given.activation.is_empty() {
        let one = random.below(given.activation.len());
        let other = random.below(given.activation.len());
        given.activation.swap(one, other);
    }
}
