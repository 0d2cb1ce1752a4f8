//! Lists of askings: days driven to their end with many refusals in between.

use super::day::Habit;
use super::draft::Draft;
use super::random::Random;
use super::{flaw, nuisance, orders, places};
use crate::command::Command;
use crate::encode::encode;
use crate::phase::Phase;
use crate::plan::Plan;

/// One command asked of a plan: a stream, a place in it, and how many entries
/// the start list has.
#[derive(Clone, Debug, PartialEq, Eq)]
pub struct Asking {
    pub bytes: Vec<u8>,
    pub place: usize,
    pub starts_len: usize,
}

impl Asking {
    /// A command somewhere in a stream, other bytes before and after it.
    fn amid(random: &mut Random, command: &[u8], starts_len: usize) -> Asking {
        let mut asking = Asking::at_end(random, command, starts_len);
        asking.bytes.extend(random.bytes(9));
        asking
    }

    /// A command at the end of a stream, other bytes before it.
    fn at_end(random: &mut Random, command: &[u8], starts_len: usize) -> Asking {
        let mut bytes = random.bytes(5);
        let place = bytes.len();
        bytes.extend(command);
        Asking {
            bytes,
            place,
            starts_len,
        }
    }

    /// A place at or past the end of a stream.
    fn past_end(random: &mut Random, command: &[u8], starts_len: usize) -> Asking {
        let len = command.len();
        Asking {
            bytes: command.to_vec(),
            place: random.pick(&[len, len + 1, 70_000, usize::MAX]),
            starts_len,
        }
    }
}

/// The askings of one seed, for one plan that begins empty. Most lists go on
/// to the end of a day and its FETCH, some stop anywhere.
pub fn askings(seed: u64) -> Vec<Asking> {
    let mut asker = Asker::new(seed);
    for _ in 0..asker.random.pick(&[0, 0, 1, 1, 2, 3]) {
        let mut draft = Draft::random(&mut asker.random);
        if asker.random.chance(60) {
            flaw::spoil(&mut asker.random, &mut draft);
        }
        asker.send(&draft);
    }
    let draft = Draft::random(&mut asker.random);
    asker.send(&draft);
    if asker.random.chance(10) {
        let end = asker.random.below(asker.askings.len());
        asker.askings.truncate(end);
    }
    asker.askings
}

/// At least so many askings of one seed, for one plan that begins empty: one
/// plan after another, often sent with flaws first and then as it should be,
/// and each day to its end.
pub fn many_askings(seed: u64, least: usize) -> Vec<Asking> {
    let mut asker = Asker::new(seed);
    while asker.askings.len() < least {
        let draft = Draft::random(&mut asker.random);
        for _ in 0..asker.random.pick(&[0, 1, 1, 2]) {
            let mut flawed = draft.clone();
            flaw::spoil(&mut asker.random, &mut flawed);
            asker.send(&flawed);
            asker.ask(&encode(Command::Begin), draft.tasks);
        }
        asker.send(&draft);
    }
    asker.askings
}

/// Whoever asks: keeps a plan of its own to know what is in turn.
struct Asker {
    random: Random,
    plan: Plan,
    running: Vec<u16>,
    nuisances: u32,
    askings: Vec<Asking>,
}

impl Asker {
    fn new(seed: u64) -> Asker {
        let mut random = Random::new(seed);
        Asker {
            nuisances: random.pick(&[5, 20, 50, 70]),
            random,
            plan: Plan::new(),
            running: Vec::new(),
            askings: Vec::new(),
        }
    }

    /// Sends a whole plan and, where BEGIN is accepted, reports until the last
    /// task has ended, with any bounds in between; mostly FETCH follows. A refused
    /// BEGIN may come again, with the execution order whole.
    fn send(&mut self, draft: &Draft) {
        let n = draft.records.len().max(1) as u16;
        let commands = draft.commands(&mut self.random);
        if self.plan.phase() == Phase::Ready {
            // The old plan has not been fetched, and this one comes too early.
            self.ask(&commands[0], n);
            self.ask(&encode(Command::Fetch), n);
        }
        for command in commands {
            self.ask(&command, n);
        }
        if self.plan.phase() == Phase::Orders && self.random.chance(50) {
            self.send_rest(draft, n);
        }
        let habit = Habit::random(&mut self.random);
        while self.plan.phase() == Phase::Running {
            let (plan, running) = (&self.plan, &mut self.running);
            let next = habit.next(&mut self.random, plan, running, places::any);
            self.ask(&encode(next), n);
        }
        if self.plan.phase() == Phase::Ready && self.random.chance(85) {
            self.ask(&encode(Command::Fetch), n);
        }
        self.pester(&encode(Command::Begin), n);
    }

    /// Sends what the execution order lacks, and BEGIN again.
    fn send_rest(&mut self, draft: &Draft, n: u16) {
        let mut rest = orders::execution(&mut self.random, &draft.activation);
        rest.retain(|task| !draft.execution.contains(task));
        for task in rest {
            self.ask(&encode(Command::Execution(task)), n);
        }
        self.ask(&encode(Command::Begin), n);
    }

    /// Asks a command, after some that are refused.
    fn ask(&mut self, command: &[u8], n: u16) {
        while self.random.chance(self.nuisances) {
            self.pester(command, n);
        }
        if self.random.chance(2) {
            self.ask_cuts(command);
        }
        let starts_len = self.random.pick(&[64, 64, 64, 65, 100, 1024]);
        let asking = Asking::amid(&mut self.random, command, starts_len);
        let mut starts = vec![0; starts_len];
        let answer = self.plan.command(&asking.bytes, asking.place, &mut starts);
        self.running.extend(&starts[..answer.starts]);
        self.askings.push(asking);
    }

    /// Asks a command cut at each of its bytes.
    fn ask_cuts(&mut self, command: &[u8]) {
        for end in 0..command.len() {
            let asking = Asking::at_end(&mut self.random, &command[..end], 64);
            self.askings.push(asking);
        }
    }

    /// Asks something that is refused where `command` would come next.
    fn pester(&mut self, command: &[u8], n: u16) {
        let asking = nuisance(&mut self.random, command, n);
        let mut plan = self.plan.clone();
        let mut starts = vec![0; asking.starts_len];
        let answer = plan.command(&asking.bytes, asking.place, &mut starts);
        if answer.number != 0 {
            self.askings.push(asking);
        }
    }
}

/// An asking that is likely refused where `command` would come next.
fn nuisance(random: &mut Random, command: &[u8], n: u16) -> Asking {
    let other = nuisance::any_command(random, n);
    let either = if random.chance(50) { command } else { &other };
    match random.between(0, 9) {
        0 => {
            let unknown = nuisance::unknown_byte(random);
            Asking::amid(random, &unknown, 64)
        }
        1 | 2 => {
            let cut = nuisance::cut(random, either);
            Asking::at_end(random, &cut, 64)
        }
        3 => Asking::past_end(random, either, 64),
        4 => {
            let starts_len = random.pick(&[0, 1, 62, 63]);
            let bytes = random.pick(&[either, &[], &[0x09], &either[..1]]);
            Asking::at_end(random, bytes, starts_len)
        }
        _ => Asking::amid(random, &other, 65),
    }
}
