//! Whole days to be timed.

use crate::kept::{give, Kept};
use crate::records::{any_count, records};
use crate::tool::given_bounds;
use peer::generate::{encode, Random, Shape};
use peer::{desk_peak, Command, Plan};
use std::ops::Range;

/// The commands of a day, one after another.
pub struct Day {
    /// n.
    pub tasks: usize,
    pub bytes: Vec<u8>,
    /// Where BEGIN stands.
    begin: usize,
}

impl Day {
    /// A day of n tasks and p processors; M is so many times the peak. Any
    /// running task ends next.
    pub fn new(shape: Shape, n: usize, p: u8, peaks: u32) -> Day {
        let random = &mut Random::new(n as u64);
        let commands = setup(random, shape, n, p, peaks);
        let mut bytes = commands.into_iter().flat_map(encode).collect();
        let begin = Vec::len(&bytes);
        add_day(random, &mut bytes);
        Day {
            tasks: n,
            bytes,
            begin,
        }
    }

    /// The places of PLAN, STEP, 03 and 04.
    pub fn setup(&self) -> Range<usize> {
        0..self.begin
    }

    /// The place behind the activation order, where 04 begins.
    pub fn activated(&self) -> usize {
        let entry = encode(Command::Execution(1)).len();
        self.begin - self.tasks * entry
    }

    /// The place of BEGIN.
    pub fn begin(&self) -> Range<usize> {
        self.begin..self.begin + 1
    }

    /// The places of the reports.
    pub fn reports(&self) -> Range<usize> {
        self.begin().end..self.fetch().start
    }

    /// The place of FETCH, the last command.
    pub fn fetch(&self) -> Range<usize> {
        self.bytes.len() - 1..self.bytes.len()
    }

    /// The place behind half of the reports.
    pub fn halfway(&self) -> usize {
        let report = encode(Command::Done(1)).len();
        self.reports().start + self.tasks / 2 * report
    }

    /// 08 with the bound that PLAN gave.
    pub fn same_bound(&self) -> Vec<u8> {
        encode(Command::Places(given_bounds(&self.bytes)[0]))
    }

    /// A plan with all commands up to a place.
    pub fn led<P: Kept>(&self, mut plan: P, place: usize) -> P {
        self.run(0..place, &mut plan, &mut [0; Plan::STARTS]);
        plan
    }

    /// Gives a plan the commands at some places; all are accepted.
    pub fn run(&self, places: Range<usize>, plan: &mut impl Kept, starts: &mut [u16]) {
        give(plan, &self.bytes, places, starts);
    }
}

/// The commands ahead of BEGIN. Parents have lower numbers than their
/// children and the activation order falls; the execution order is mixed.
fn setup(random: &mut Random, shape: Shape, n: usize, p: u8, peaks: u32) -> Vec<Command> {
    let parent = |random: &mut Random, node| shape.parent(random, node, n);
    let records = records(random, n, parent, |random, _| any_count(random));
    let activation: Vec<u16> = (1..=n as u16).rev().collect();
    let mut execution = activation.clone();
    random.shuffle(&mut execution);
    let mut commands = vec![Command::Plan {
        tasks: n as u16,
        processors: p,
        memory_bound: peaks * desk_peak(&records, &activation).peak,
    }];
    commands.extend(records.into_iter().map(Command::Step));
    commands.extend(activation.into_iter().map(Command::Activation));
    commands.extend(execution.into_iter().map(Command::Execution));
    commands
}

/// Adds BEGIN, the reports of all tasks, in some order in which they can end, by
/// the peer, and FETCH.
fn add_day(random: &mut Random, bytes: &mut Vec<u8>) {
    let mut plan = Plan::new();
    let mut starts = [0; Plan::STARTS];
    let mut running = Vec::new();
    let mut place = 0;
    bytes.extend(encode(Command::Begin));
    while place < bytes.len() {
        let answer = plan.command(bytes, place, &mut starts);
        place += answer.used;
        running.extend(&starts[..answer.starts]);
        if place == bytes.len() && !running.is_empty() {
            let task = running.swap_remove(random.below(running.len()));
            bytes.extend(encode(Command::Done(task)));
        }
    }
    bytes.extend(encode(Command::Fetch));
}
