//! Streams that the seeds hardly ever give.

use crate::day::Day;
use peer::generate::{encode, Shape};
use peer::{Command, Plan, Record};

/// The bytes that the day printer reads at a time, at most.
const INPUT_BUFFER: usize = 65_536;

/// The largest work and out count.
const COUNT: u16 = u16::MAX;

/// Each with what it is.
pub fn streams() -> Vec<(&'static str, Vec<u8>)> {
    vec![
        ("64 starts at BEGIN", many_starts_at_begin()),
        ("64 starts at DONE", many_starts_at_done()),
        ("63 starts at 08", many_starts_at_08()),
        ("longer than the input buffer", long(&[])),
        ("refused behind the input buffer", long(&[0x09])),
    ]
}

/// A whole day, to come after a refusal.
pub fn another_day() -> Vec<u8> {
    Day::new(Shape::Random, 3, 2, 1).bytes
}

/// The most starts with the most digits that a plan has, and large figures; with
/// one order.
fn many_starts_at_begin() -> Vec<u8> {
    let record = Record {
        parent: 1,
        work: COUNT,
        out: COUNT,
    };
    star(u32::MAX, record, record, &[Command::Activation], &[])
}

/// The first task ends, and 64 others have room.
fn many_starts_at_done() -> Vec<u8> {
    all_places_taken(Command::Done(Plan::TASKS as u16))
}

/// The first task runs on, and there are places for all others.
fn many_starts_at_08() -> Vec<u8> {
    all_places_taken(Command::Places(u32::MAX))
}

/// The first task takes all places, and others wait for a command.
fn all_places_taken(behind: Command) -> Vec<u8> {
    let all = Record {
        parent: 1,
        work: COUNT,
        out: 0,
    };
    let some = Record {
        work: COUNT / Plan::PROCESSORS as u16,
        ..all
    };
    let orders = [Command::Activation, Command::Execution];
    star(u32::from(COUNT), all, some, &orders, &[behind])
}

/// Task 1 is fed by all others. The one with the highest number comes first in
/// each order that is given; some commands come after BEGIN.
fn star(
    memory_bound: u32,
    first: Record,
    others: Record,
    orders: &[fn(u16) -> Command],
    behind: &[Command],
) -> Vec<u8> {
    let n = Plan::TASKS as u16;
    let mut commands = vec![
        Command::Plan {
            tasks: n,
            processors: Plan::PROCESSORS as u8,
            memory_bound,
        },
        Command::Step(Record {
            parent: 0,
            ..others
        }),
    ];
    commands.extend((2..n).map(|_| Command::Step(others)));
    commands.push(Command::Step(first));
    for next in orders {
        commands.extend((1..=n).rev().map(next));
    }
    commands.push(Command::Begin);
    commands.extend(behind);
    commands.into_iter().flat_map(encode).collect()
}

/// Days of the most tasks, three times as long as the input buffer, and some
/// bytes behind them.
fn long(behind: &[u8]) -> Vec<u8> {
    let mut stream = another_day();
    let shapes = [Shape::Random, Shape::Chain, Shape::Star, Shape::Binary];
    for shape in shapes.into_iter().cycle() {
        if stream.len() > 3 * INPUT_BUFFER {
            break;
        }
        stream.extend(Day::new(shape, Plan::TASKS, 4, 1).bytes);
    }
    stream.extend(behind);
    stream
}

#[cfg(test)]
mod tests {
    use super::*;
    use crate::feeding::expected;

    /// The last line that the peer prints, and how many tasks start in it.
    fn last_line(stream: &[u8]) -> (String, usize) {
        let output = String::from_utf8(expected(stream)).expect("lines of text");
        let line = output.lines().last().expect("one line at least");
        let starts = line.split_once(" start ").map_or("", |(_, starts)| starts);
        (line.to_string(), starts.split(' ').count())
    }

    #[test]
    fn as_many_starts_as_free_processors() {
        let (line, starts) = last_line(&many_starts_at_begin());
        assert!(line.starts_with("begin "), "{line}");
        assert_eq!(starts, Plan::PROCESSORS);
        let (line, starts) = last_line(&many_starts_at_done());
        assert!(line.starts_with("done 1024 "), "{line}");
        assert_eq!(starts, Plan::PROCESSORS);
        let (line, starts) = last_line(&many_starts_at_08());
        assert!(line.starts_with("places M=4294967295 "), "{line}");
        assert_eq!(starts, Plan::PROCESSORS - 1);
    }

    #[test]
    fn days_to_their_fetch() {
        for stream in [another_day(), long(&[])] {
            let (line, _) = last_line(&stream);
            assert_eq!(line, "fetch booked=0");
        }
    }

    #[test]
    fn a_refusal_behind_the_input_buffer() {
        let days = long(&[]);
        assert!(days.len() > 3 * INPUT_BUFFER);
        let (line, _) = last_line(&long(&[0x09]));
        assert_eq!(line, format!("refused 2 at {}", days.len()));
    }
}
