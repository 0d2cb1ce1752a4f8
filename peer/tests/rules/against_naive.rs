//! The fast plan beside the naive one, on random days of small plans.

use crate::menu::{ask, bytes_of, written};
use crate::naive::{Naive, Reply};
use peer::generate::{askings, stream, Asking};
use peer::{decode, printer, Command, Plan};

/// The naive plan takes its time: larger plans are left out.
const LARGEST: u16 = 40;

fn is_small(command: Command) -> bool {
    !matches!(command, Command::Plan { tasks, .. } if tasks > LARGEST && tasks <= 1024)
}

/// Asks both the same, and compares all that they answer. Answers the number.
pub fn compare(plan: &mut Plan, naive: &mut Naive, asking: &Asking) -> u8 {
    let Asking {
        bytes,
        place,
        starts_len,
    } = asking;
    let (answer, starts) = ask(plan, bytes, *place, *starts_len);
    let reply = Reply {
        number: answer.number,
        used: answer.used,
        starts,
        peak: answer.peak as usize,
        peak_task: answer.peak_task.into(),
        offers: answer.offers,
    };
    assert_eq!(reply, naive.command(bytes, *place, *starts_len));
    assert_eq!(plan.phase(), naive.phase);
    assert_eq!(plan.booked() as usize, naive.booked());
    assert_eq!(plan.in_use() as usize, naive.in_use());
    assert_eq!(plan.fullness() as usize, naive.fullness());
    assert_eq!(
        plan.standing().map(|count| count as usize),
        naive.standing()
    );
    for task in 0..=LARGEST + 1 {
        assert_eq!(plan.booked_by(task) as usize, naive.booked_by(task.into()));
        assert_eq!(plan.why(task), naive.why(task.into()));
    }
    let enough = bytes_of(naive.n);
    for list_len in [enough - 1, enough] {
        assert_eq!(written(plan, list_len), naive.written(list_len));
    }
    answer.number
}

#[test]
fn askings_with_refusals_in_between() {
    let is_small = |asking: &Asking| {
        decode(&asking.bytes, asking.place).map_or(true, |(command, _)| is_small(command))
    };
    let lists = (0..400)
        .map(askings)
        .filter(|list| list.iter().all(is_small));
    let mut compared = 0;
    for list in lists {
        let (mut plan, mut naive) = (Plan::new(), Naive::new());
        for asking in &list {
            compare(&mut plan, &mut naive, asking);
        }
        compared += 1;
    }
    assert!(compared > 200);
}

/// What the day printer prints, by the naive plan; none for large plans.
fn naive_lines(stream: &[u8]) -> Option<String> {
    let mut naive = Naive::new();
    let mut lines = String::new();
    let mut place = 0;
    while place < stream.len() {
        let command = decode(stream, place).map(|(command, _)| command);
        if command.is_ok_and(|command| !is_small(command)) {
            return None;
        }
        let reply = naive.command(stream, place, 64);
        lines += &match (reply.number, command) {
            (0, Ok(Command::Begin)) => format!("begin peak={} by={}", reply.peak, reply.peak_task),
            (0, Ok(Command::Done(task))) => format!("done {task} offers={}", reply.offers),
            (0, Ok(Command::Places(bound))) => format!("places M={bound}"),
            (0, Ok(Command::Fetch)) => format!("fetch booked={}\n", naive.booked()),
            (0, _) => String::new(),
            (number, _) => return Some(format!("{lines}refused {number} at {place}\n")),
        };
        if let Ok(Command::Begin | Command::Done(_) | Command::Places(_)) = command {
            let (booked, used, full) = (naive.booked(), naive.in_use(), naive.fullness());
            let starts: Vec<String> = reply.starts.iter().map(u16::to_string).collect();
            let starts = if starts.is_empty() {
                "-".into()
            } else {
                starts.join(" ")
            };
            lines += &format!(" booked={booked} used={used} full={full} start {starts}\n");
        }
        place += reply.used;
    }
    Some(lines)
}

#[test]
fn printed_lines() {
    let mut compared = 0;
    for stream in (0..600).map(stream) {
        let Some(lines) = naive_lines(&stream) else {
            continue;
        };
        let mut output = Vec::new();
        printer::print(&stream[..], &mut output).unwrap();
        assert_eq!(String::from_utf8(output).unwrap(), lines);
        compared += 1;
    }
    assert!(compared > 300);
}
