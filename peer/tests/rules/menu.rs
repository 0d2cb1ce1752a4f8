//! Plans to try things on, and ways to give commands.

use peer::generate::encode;
use peer::{Answer, Command, Phase, Plan, Reason, Record, Wrote};
use std::fmt::Debug;

/// What unused entries of a start list hold before a command.
pub const MARK: u16 = 0xbeef;

/// How many tasks are asked about after each command.
const ASKED: u16 = 8;

/// A plan with its orders.
#[derive(Clone, Debug, PartialEq)]
pub struct Menu {
    pub processors: u8,
    pub memory_bound: u32,
    pub records: Vec<Record>,
    pub activation: Vec<u16>,
    pub execution: Vec<u16>,
}

impl Menu {
    /// A plan with both orders 1 to n; records are parent, work, out.
    pub fn new(processors: u8, memory_bound: u32, records: &[(u16, u16, u16)]) -> Menu {
        let records: Vec<Record> = records
            .iter()
            .map(|&(parent, work, out)| Record { parent, work, out })
            .collect();
        let order: Vec<u16> = (1..=records.len() as u16).collect();
        Menu {
            processors,
            memory_bound,
            records,
            activation: order.clone(),
            execution: order,
        }
    }

    /// PLAN and the steps.
    pub fn steps(&self) -> Vec<Vec<u8>> {
        let mut commands = vec![encode(Command::Plan {
            tasks: self.records.len() as u16,
            processors: self.processors,
            memory_bound: self.memory_bound,
        })];
        commands.extend(
            self.records
                .iter()
                .map(|&record| encode(Command::Step(record))),
        );
        commands
    }

    /// All commands before BEGIN.
    pub fn commands(&self) -> Vec<Vec<u8>> {
        let mut commands = self.steps();
        commands.extend(
            self.activation
                .iter()
                .map(|&task| encode(Command::Activation(task))),
        );
        commands.extend(
            self.execution
                .iter()
                .map(|&task| encode(Command::Execution(task))),
        );
        commands
    }

    /// A plan given all commands before BEGIN, each accepted.
    pub fn given(&self) -> Plan {
        accepting(&self.commands())
    }

    /// The answer to BEGIN, accepted or not, its starts, and the plan after it.
    pub fn begun(&self) -> (Answer, Vec<u16>, Plan) {
        let mut plan = self.given();
        let (answer, starts) = give(&mut plan, &[0x05]);
        (answer, starts, plan)
    }

    /// The plan with its day reported to the end, and not fetched.
    pub fn ready(&self) -> Plan {
        let (_, starts, mut plan) = self.begun();
        finish(&mut plan, starts);
        assert_eq!(plan.phase(), Phase::Ready);
        plan
    }

    /// The same, fetched.
    pub fn over(&self) -> Plan {
        let mut plan = self.ready();
        fetch(&mut plan);
        assert_eq!(plan.phase(), Phase::Over);
        plan
    }
}

/// Plan A.
pub fn plan_a() -> Menu {
    Menu::new(2, 7, &[(3, 5, 1), (3, 5, 1), (0, 0, 1)])
}

/// Plan A in a cold room of so many places.
pub fn plan_a_within(memory_bound: u32) -> Menu {
    Menu {
        memory_bound,
        ..plan_a()
    }
}

/// Plan C.
pub fn plan_c() -> Menu {
    Menu::new(2, 6, &[(3, 1, 2), (3, 2, 1), (4, 1, 2), (0, 0, 3)])
}

/// Plans whose BEGIN is refused, each with the number.
pub fn refused_plans() -> Vec<(Menu, u8)> {
    let menu = |records, activation: &[u16]| Menu {
        activation: activation.to_vec(),
        ..Menu::new(1, 0, records)
    };
    vec![
        (menu(&[(1, 0, 0)], &[1]), 7),
        (menu(&[(0, 1, 1), (0, 1, 1)], &[1, 2]), 7),
        (menu(&[(2, 1, 1), (1, 1, 1)], &[1, 2]), 7),
        (menu(&[(0, 1, 1), (2, 1, 1)], &[1, 2]), 8),
        // A cycle beside the root.
        (menu(&[(2, 0, 0), (1, 0, 0), (0, 0, 0)], &[1, 2, 3]), 8),
        (menu(&[(0, 1, 1), (1, 1, 1)], &[1, 2]), 8),
        (menu(&[(0, 1, 1), (1, 1, 1)], &[2, 1]), 9),
    ]
}

/// Plans ahead of their day, and the phase of each: plan A after each of its
/// commands, and those whose BEGIN was refused.
pub fn ahead_of_days() -> Vec<(Plan, Phase)> {
    let menu = plan_a();
    let (commands, steps) = (menu.commands(), menu.steps());
    let mut plans = vec![(Plan::new(), Phase::Empty)];
    for given in 1..=commands.len() {
        let is_missing_steps = given < steps.len();
        let phase = if is_missing_steps {
            Phase::Steps
        } else {
            Phase::Orders
        };
        plans.push((accepting(&commands[..given]), phase));
    }
    let refused = refused_plans().into_iter();
    plans.extend(refused.map(|(menu, _)| (menu.begun().2, Phase::Orders)));
    plans
}

/// A plan that accepted these commands from empty on.
pub fn accepting(commands: &[Vec<u8>]) -> Plan {
    let mut plan = Plan::new();
    for command in commands {
        let (answer, _) = give(&mut plan, command);
        assert_eq!(
            (answer.number, answer.used),
            (0, command.len()),
            "{command:02x?}"
        );
    }
    plan
}

/// A plan that accepted a whole stream from empty on.
pub fn reading(stream: &[u8]) -> Plan {
    let mut plan = Plan::new();
    let mut place = 0;
    while place < stream.len() {
        let (answer, _) = ask(&mut plan, stream, place, Plan::STARTS);
        assert_eq!(answer.number, 0, "at {place}");
        place += answer.used;
    }
    plan
}

/// A refusal with this number and nothing else.
pub fn refused(number: u8) -> Answer {
    Answer {
        number,
        ..Answer::default()
    }
}

/// Gives one command with a start list of 64 entries.
pub fn give(plan: &mut Plan, command: &[u8]) -> (Answer, Vec<u16>) {
    ask(plan, command, 0, 64)
}

/// Gives DONE for a task.
pub fn done(plan: &mut Plan, task: u16) -> (Answer, Vec<u16>) {
    give(plan, &encode(Command::Done(task)))
}

/// Gives FETCH.
pub fn fetch(plan: &mut Plan) -> (Answer, Vec<u16>) {
    give(plan, &encode(Command::Fetch))
}

/// Gives 08 with a bound.
pub fn places(plan: &mut Plan, bound: u32) -> (Answer, Vec<u16>) {
    give(plan, &encode(Command::Places(bound)))
}

/// Goes on with a day until its last task has ended, always reporting the longest running task.
/// Answers all its starts.
pub fn finish(plan: &mut Plan, mut started: Vec<u16>) -> Vec<u16> {
    let mut ended = 0;
    while plan.phase() == Phase::Running {
        let (report, starts) = done(plan, started[ended]);
        assert_eq!(report.number, 0);
        started.extend(starts);
        ended += 1;
    }
    assert_eq!(ended, started.len());
    started
}

/// Gives one command. Later entries of the start list must stay untouched, an
/// accepted BEGIN alone must answer a peak and its task, and a refusal must leave
/// every answer of the plan as it was.
pub fn ask(plan: &mut Plan, bytes: &[u8], place: usize, starts_len: usize) -> (Answer, Vec<u16>) {
    let before = answers(plan);
    let mut starts = vec![MARK; starts_len];
    let answer = plan.command(bytes, place, &mut starts);
    let later = starts.split_off(answer.starts);
    assert!(later.iter().all(|&entry| entry == MARK));
    let begins = answer.number == 0 && bytes[place] == 0x05;
    assert!(begins || answer.peak == 0);
    assert_eq!(answer.peak_task != 0, begins);
    if answer.number != 0 {
        assert_eq!(answer, refused(answer.number));
        assert_eq!(answers(plan), before);
    }
    (answer, starts)
}

/// The bytes of a written plan of n tasks.
pub fn bytes_of(n: usize) -> usize {
    8 + 13 * n
}

/// Has a plan written into a list of so many bytes: those that were written, or
/// the number that refuses. All others must stay untouched, whatever they are.
pub fn written(plan: &Plan, list_len: usize) -> Result<Vec<u8>, u8> {
    lent([0x00, 0xff], list_len, |list| plan.write(list))
}

/// Has an order found into a list of so many entries: those that were written, or
/// the number that refuses. All others must stay untouched, whatever they are.
pub fn found(plan: &Plan, list_len: usize) -> Result<Vec<u16>, u8> {
    lent([0x0000, 0xffff], list_len, |list| plan.find_order(list))
}

/// Lends a list of so many entries, once full of each mark: what was written, which
/// is the same, or the number that refuses.
fn lent<Entry: Copy + PartialEq + Debug>(
    marks: [Entry; 2],
    list_len: usize,
    write: impl Fn(&mut [Entry]) -> Wrote,
) -> Result<Vec<Entry>, u8> {
    let [over_zeros, over_ones] = marks.map(|mark| {
        let mut list = vec![mark; list_len];
        let Wrote { number, count } = write(&mut list);
        let later = list.split_off(count);
        assert_eq!(later, vec![mark; list_len - count]);
        if number == 0 {
            return Ok(list);
        }
        assert_eq!(count, 0);
        Err(number)
    });
    assert_eq!(over_zeros, over_ones);
    over_zeros
}

/// Everything that can be asked of a plan, but for an order found, which takes its
/// time; it is written out if it is small.
pub fn answers(plan: &Plan) -> impl PartialEq + Debug {
    let booked_by: Vec<u32> = (1..=ASKED).map(|task| plan.booked_by(task)).collect();
    let whys: Vec<Reason> = (1..=ASKED).map(|task| plan.why(task)).collect();
    (
        plan.phase(),
        plan.booked(),
        plan.in_use(),
        plan.fullness(),
        plan.standing(),
        booked_by,
        whys,
        written(plan, bytes_of(ASKED.into())),
    )
}

/// Bytes as the paper writes them.
pub fn hex(text: &str) -> Vec<u8> {
    text.split_whitespace()
        .map(|byte| u8::from_str_radix(byte, 16).unwrap())
        .collect()
}
