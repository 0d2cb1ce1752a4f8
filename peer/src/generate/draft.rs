//! A plan to be sent, with both orders or the activation order alone.

use super::counts::Counts;
use super::orders;
use super::random::Random;
use super::tree::Shape;
use crate::command::Command;
use crate::desk::desk_peak;
use crate::encode::encode;
use crate::peak::needs;
use crate::plan::Plan;
use crate::record::Record;

/// Everything that PLAN, STEP, 03 and 04 will say. Valid as it is made; a
/// flaw may change it later.
#[derive(Clone)]
pub(crate) struct Draft {
    pub tasks: u16,
    pub processors: u8,
    pub memory_bound: u32,
    pub records: Vec<Record>,
    pub activation: Vec<u16>,
    /// Empty where no 04 will come.
    pub execution: Vec<u16>,
}

impl Draft {
    /// A plan of any size and plain shape.
    pub fn random(random: &mut Random) -> Draft {
        let n = size(random);
        let counts = Counts::random(random);
        let parents = Shape::random(random).parents(random, n);
        let records = parents
            .into_iter()
            .map(|parent| Record {
                parent,
                work: counts.count(random),
                out: out(random, counts, parent),
            })
            .collect();
        Draft::of(random, records)
    }

    /// These steps, which form a tree, with any orders, p and M.
    pub fn of(random: &mut Random, records: Vec<Record>) -> Draft {
        let activation = orders::activation(random, &records);
        Draft {
            tasks: records.len() as u16,
            processors: processors(random),
            memory_bound: memory_bound(random, &records, &activation),
            execution: execution(random, &activation),
            records,
            activation,
        }
    }

    /// The commands that send this plan, BEGIN the last.
    pub fn commands(&self, random: &mut Random) -> Vec<Vec<u8>> {
        let mut commands = self.steps();
        commands.extend(self.mixed_orders(random));
        commands.push(encode(Command::Begin));
        commands
    }

    /// PLAN and the steps.
    pub fn steps(&self) -> Vec<Vec<u8>> {
        let mut commands = vec![encode(Command::Plan {
            tasks: self.tasks,
            processors: self.processors,
            memory_bound: self.memory_bound,
        })];
        commands.extend(
            self.records
                .iter()
                .map(|&record| encode(Command::Step(record))),
        );
        commands
    }

    /// 03 and 04 in some mix: one after the other, or interleaved.
    fn mixed_orders(&self, random: &mut Random) -> Vec<Vec<u8>> {
        let share_of_03 = random.pick(&[0, 10, 50, 50, 90, 100]);
        let mut activation = self.activation.iter().copied().map(Command::Activation);
        let mut execution = self.execution.iter().copied().map(Command::Execution);
        let either_left = || {
            if random.chance(share_of_03) {
                activation.next().or_else(|| execution.next())
            } else {
                execution.next().or_else(|| activation.next())
            }
        };
        std::iter::from_fn(either_left).map(encode).collect()
    }
}

/// An out count. The root's, which stands until it is fetched, is now and then
/// unlike all other counts of its plan.
fn out(random: &mut Random, counts: Counts, parent: u16) -> u16 {
    if parent == 0 && random.chance(25) {
        random.pick(&[0, 0, 1, 60_000, 65_535])
    } else {
        counts.count(random)
    }
}

/// An execution order, or none.
fn execution(random: &mut Random, activation: &[u16]) -> Vec<u16> {
    if random.chance(25) {
        Vec::new()
    } else {
        orders::execution(random, activation)
    }
}

/// n: mostly small, sometimes as large as it gets.
fn size(random: &mut Random) -> usize {
    let n = match random.between(0, 199) {
        0..=19 => 1,
        20..=119 => random.between(2, 9),
        120..=174 => random.between(10, 40),
        175..=191 => random.between(41, 160),
        192..=197 => random.between(161, 1023),
        _ => Plan::TASKS as u32,
    };
    n as usize
}

/// p: few, many or as many as it gets.
fn processors(random: &mut Random) -> u8 {
    let p = match random.between(0, 9) {
        0..=1 => 1,
        2..=3 => 2,
        4..=6 => random.between(3, 8),
        7..=8 => random.between(1, 64),
        _ => Plan::PROCESSORS as u32,
    };
    p as u8
}

/// M: at the peak, just above it, up to the sum of all needs, or far above.
fn memory_bound(random: &mut Random, records: &[Record], activation: &[u16]) -> u32 {
    let peak = desk_peak(records, activation).peak;
    let all: u32 = needs(records).iter().sum();
    match random.between(0, 9) {
        0..=2 => peak,
        3..=4 => peak + random.between(1, 4),
        5..=7 => random.between(peak, all),
        8 => random.between(all, u32::MAX),
        _ => u32::MAX,
    }
}
