//! The peak's task at each BEGIN that generated commands lead to, and in each
//! begin line.

use crate::generator::{ask_each, Seen};
use crate::menu::hex;
use crate::peak_sums::{peak_and_equals, peak_and_task};
use crate::plan_a;
use crate::printer::printed;
use crate::watch::Watch;
use peer::generate::{askings, many_askings, stream, Asking};
use peer::{desk_peak, Answer, Plan};

/// A plan, what its accepted commands say, and what was seen of its peaks.
#[derive(Default)]
struct Begins {
    plan: Plan,
    watch: Watch,
    /// The peak and its task at each accepted BEGIN.
    peaks: Vec<(u32, u16)>,
    seen: Seen,
}

impl Begins {
    fn ask(&mut self, bytes: &[u8], place: usize, starts_len: usize) -> Answer {
        let mut starts = vec![0; starts_len];
        let answer = self.plan.command(bytes, place, &mut starts);
        let begins = answer.number == 0 && bytes[place] == 0x05;
        if answer.number == 0 {
            let starts = &starts[..answer.starts];
            self.watch.accepted(bytes, place, &answer, starts);
        }
        if begins {
            self.check(&answer);
        } else {
            assert_eq!((answer.peak, answer.peak_task), (0, 0));
        }
        answer
    }

    /// Checks the answer to an accepted BEGIN; the desk's is the same.
    fn check(&mut self, answer: &Answer) {
        let Watch {
            records,
            activation,
            ..
        } = &self.watch;
        let wanted = peak_and_task(records, activation);
        assert_eq!((answer.peak, answer.peak_task), wanted);
        let desk = desk_peak(records, activation);
        assert_eq!((desk.number, (desk.peak, desk.peak_task)), (0, wanted));
        self.peaks.push(wanted);
        self.note();
    }

    /// Takes note of the ties.
    fn note(&mut self) {
        let activation = &self.watch.activation;
        let (peak, equals) = peak_and_equals(&self.watch.records, activation);
        let n = activation.len();
        self.seen.note(match (peak, equals.len()) {
            _ if n == 1 => "one task",
            (0, _) => "a peak of 0",
            (_, 1) if equals[0] == activation[0] => "the first alone",
            (_, 1) if equals[0] == activation[n - 1] => "the root alone",
            (_, 1) => "one in between alone",
            (_, count) if count == n => "all equal",
            _ => "a tie",
        });
        if equals.iter().min() != equals.first() {
            self.seen.note("not the lowest number");
        }
        if n > 160 && equals.len() > 1 {
            self.seen.note("a tie in a large plan");
        }
    }

    fn ask_stream(&mut self, stream: &[u8]) {
        (self.plan, self.watch) = Default::default();
        ask_each(stream, |bytes, place| self.ask(bytes, place, 64));
    }

    fn ask_list(&mut self, list: &[Asking]) {
        (self.plan, self.watch) = Default::default();
        for asking in list {
            self.ask(&asking.bytes, asking.place, asking.starts_len);
        }
    }
}

#[test]
fn streams() {
    let mut begins = Begins::default();
    for stream in (7500..8500).map(stream) {
        begins.ask_stream(&stream);
    }
    begins.seen.check(&[
        ("one task", 70),
        ("a peak of 0", 60),
        ("the first alone", 8),
        ("the root alone", 150),
        ("one in between alone", 250),
        ("all equal", 5),
        ("a tie", 80),
        ("not the lowest number", 100),
        ("a tie in a large plan", 8),
    ]);
}

#[test]
fn askings_with_refusals_in_between() {
    let mut begins = Begins::default();
    for list in (7500..7700).map(askings) {
        begins.ask_list(&list);
    }
    begins.ask_list(&many_askings(75, 20_000));
    begins.seen.check(&[
        ("one task", 20),
        ("a peak of 0", 20),
        ("a tie", 20),
        ("not the lowest number", 20),
    ]);
}

/// The peak and its task in a begin line, which has its parts in this order.
fn in_line(line: &str) -> (u32, u16) {
    let words: Vec<&str> = line.split(' ').collect();
    let names = ["peak=", "by=", "booked=", "used=", "full="];
    let numbers: Vec<&str> = (names.iter().zip(&words[1..]))
        .map(|(name, word)| word.strip_prefix(name).unwrap())
        .collect();
    assert_eq!((words[0], words[6]), ("begin", "start"), "{line}");
    (numbers[0].parse().unwrap(), numbers[1].parse().unwrap())
}

/// What is printed of a stream has the peaks that were answered, and no other line
/// names a task.
fn check_lines(stream: &[u8]) -> usize {
    let mut begins = Begins::default();
    begins.ask_stream(stream);
    let lines = printed(stream);
    let of_begin = lines.lines().filter(|line| line.starts_with("begin"));
    assert!(of_begin.map(in_line).eq(begins.peaks.iter().copied()));
    assert_eq!(lines.matches("by=").count(), begins.peaks.len());
    begins.peaks.len()
}

#[test]
fn begin_lines() {
    let lines = (8500..8800).map(stream).map(|stream| check_lines(&stream));
    assert!(lines.sum::<usize>() > 300);
}

#[test]
fn the_begin_line_of_plan_a() {
    assert_eq!(check_lines(&hex(plan_a::BYTES)), 1);
}
