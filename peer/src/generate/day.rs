//! A day: a plan, its BEGIN, the reports that follow with changes of the bound in
//! between, and FETCH.

use super::draft::Draft;
use super::places;
use super::random::Random;
use crate::command::Command;
use crate::encode::encode;
use crate::phase::Phase;
use crate::plan::Plan;

/// How a day goes on from BEGIN to its last report.
pub(crate) struct Habit {
    ends: Ends,
    /// So many of a hundred commands are 08 while tasks wait; later, when no bound
    /// books any, about three a day at most.
    changes: u32,
}

/// Which of the running tasks ends next.
#[derive(Clone, Copy)]
enum Ends {
    Any,
    Oldest,
    Newest,
}

impl Habit {
    pub fn random(random: &mut Random) -> Habit {
        Habit {
            ends: random.pick(&[Ends::Any, Ends::Any, Ends::Oldest, Ends::Newest]),
            changes: random.pick(&[0, 20, 60, 80]),
        }
    }

    /// The next command of a running plan: 08 with such a bound, or DONE for one of
    /// the running tasks, of which there is at least one.
    pub fn next(
        &self,
        random: &mut Random,
        plan: &Plan,
        running: &mut Vec<u16>,
        bound: fn(&mut Random, &Plan) -> u32,
    ) -> Command {
        let none_waits = plan.activated == plan.tasks;
        let most = if none_waits { 300 / plan.tasks } else { 100 };
        if random.chance(self.changes.min(most as u32)) {
            Command::Places(bound(random, plan))
        } else {
            Command::Done(self.ends.take(random, running))
        }
    }
}

impl Ends {
    fn take(self, random: &mut Random, running: &mut Vec<u16>) -> u16 {
        let place = match self {
            Ends::Any => random.below(running.len()),
            Ends::Oldest => 0,
            Ends::Newest => running.len() - 1,
        };
        running.remove(place)
    }
}

/// The commands of a whole day, FETCH the last. To know which tasks run, and which
/// bounds are taken, it drives a plan of its own; where that refuses BEGIN, a few
/// blind reports follow.
pub(crate) fn commands(random: &mut Random, draft: &Draft) -> Vec<Vec<u8>> {
    let mut commands = draft.commands(random);
    let (mut plan, mut running) = led_by(&commands);
    let mut starts = [0; Plan::STARTS];
    let habit = Habit::random(random);
    while plan.phase() == Phase::Running {
        let command = encode(habit.next(random, &plan, &mut running, places::taken));
        let answer = plan.command(&command, 0, &mut starts);
        running.extend(&starts[..answer.starts]);
        commands.push(command);
    }
    if plan.phase() == Phase::Ready {
        commands.push(encode(Command::Fetch));
    } else {
        commands.extend((1..=3).map(|task| encode(Command::Done(task))));
    }
    commands
}

/// The plan that commands lead to from an empty one, and the tasks they start.
pub(crate) fn led_by(commands: &[Vec<u8>]) -> (Plan, Vec<u16>) {
    let (mut plan, mut started) = (Plan::new(), Vec::new());
    let mut starts = [0; Plan::STARTS];
    for command in commands {
        let answer = plan.command(command, 0, &mut starts);
        started.extend(&starts[..answer.starts]);
    }
    (plan, started)
}
