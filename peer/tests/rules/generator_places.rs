//! The generator around 08: every kind of bound while a day runs, and 08 in every
//! phase, cut and with short start lists.

use crate::generator::{ask_each, Seen};
use peer::generate::{askings, cut_stream, many_askings, stream, Asking};
use peer::{decode, Answer, Command, Phase, Plan, Reason};

/// A plan that is asked, what is known of its day, and what was seen of 08.
#[derive(Default)]
struct Bounds {
    plan: Plan,
    tasks: u16,
    root: u16,
    peak: u32,
    peak_task: u16,
    /// The bound in force, and how often it came by 08 since PLAN.
    bound: u32,
    changes: usize,
    seen: Seen,
}

impl Bounds {
    /// Asks the plan, and takes note of what 08 has to be seen beside.
    fn ask(&mut self, bytes: &[u8], place: usize, starts_len: usize) -> Answer {
        if bytes.get(place) == Some(&0x08) {
            return self.ask_08(bytes, place, starts_len);
        }
        let answer = self.plan.command(bytes, place, &mut vec![0; starts_len]);
        if answer.number == 0 {
            self.note_other(decode(bytes, place).unwrap().0, &answer);
        }
        answer
    }

    fn note_other(&mut self, command: Command, answer: &Answer) {
        let changed = self.changes > 0;
        match command {
            Command::Plan {
                tasks,
                memory_bound,
                ..
            } => {
                if changed {
                    self.seen.note("a plan behind one with changes");
                }
                (self.tasks, self.bound, self.changes) = (tasks, memory_bound, 0);
            }
            Command::Activation(task) => self.root = task,
            Command::Begin => (self.peak, self.peak_task) = (answer.peak, answer.peak_task),
            Command::Done(_) if changed => self.seen.note("a report behind a change"),
            _ => {}
        }
    }

    /// Asks 08 of the plan, and takes note of where and how it was answered.
    fn ask_08(&mut self, bytes: &[u8], place: usize, starts_len: usize) -> Answer {
        let before = self.plan.clone();
        let answer = self.plan.command(bytes, place, &mut vec![0; starts_len]);
        let operands = bytes.len() - place - 1;
        match (answer.number, decode(bytes, place)) {
            (0, Ok((Command::Places(bound), _))) => {
                self.note_taken(bound, &before, &answer);
                self.bound = bound;
                self.changes += 1;
            }
            (9, Ok((Command::Places(bound), _))) => self.note_refused_9(bound, &before),
            (13, Ok((Command::Places(bound), _))) => self.note_refused_13(bound, &before),
            (1, _) => self.seen.note(cut(operands, before.phase())),
            (3, _) => self.seen.note(out_of_turn_in(before.phase())),
            (10, _) => self.seen.note("a short list"),
            (number, _) => panic!("08 is answered {number}"),
        }
        answer
    }

    fn note_taken(&mut self, bound: u32, before: &Plan, answer: &Answer) {
        let booked = before.booked();
        let waiting = |plan: &Plan| plan.standing()[0];
        let books = waiting(&self.plan) < waiting(before);
        let starts = match (books, answer.starts) {
            (false, 0) if waiting(before) == 0 => "none waits",
            (false, 0) => "nothing is booked",
            (true, 0) => "booked and not started",
            (true, 1) => "one start",
            (true, _) => "several starts",
            (false, _) => panic!("a start of what was booked before"),
        };
        self.seen.note(starts);
        self.note_all(&[
            ("the same", bound == self.bound),
            ("larger", bound > self.bound),
            ("smaller", bound < self.bound),
            ("the peak", bound == self.peak && self.peak > booked),
            ("B", bound == booked && booked > self.peak),
            (
                "the peak and B",
                bound == booked && booked == self.peak && booked > 0,
            ),
            ("one above both", bound == booked.max(self.peak) + 1),
            ("the largest", bound == u32::MAX),
            ("0", bound == 0),
            ("behind other changes", self.changes > 1),
            ("the largest plan", self.tasks == 1024),
            (
                "while only the root runs",
                before.standing()[..3] == [0, 0, 1],
            ),
        ]);
        if let Reason::NotBooked { lack, .. } = before.why(self.root) {
            match i64::from(bound) - i64::from(self.bound) - i64::from(lack) {
                0 => self.seen.note("just what the first waiting lacks"),
                -1 if lack > 1 => self.seen.note("one fewer than that"),
                _ => {}
            }
        }
    }

    fn note_refused_9(&mut self, bound: u32, before: &Plan) {
        let booked = before.booked();
        self.note_all(&[
            ("right below the peak", bound == self.peak - 1),
            ("further below the peak", bound < self.peak - 1),
            ("0 below the peak", bound == 0),
            ("B below the peak", bound == booked),
            ("below the peak and B", bound < booked),
            ("below the peak, not B", bound > booked),
            (
                "the peak's task has ended",
                before.why(self.peak_task) == Reason::Ended,
            ),
        ]);
    }

    fn note_refused_13(&mut self, bound: u32, before: &Plan) {
        let booked = before.booked();
        self.note_all(&[
            ("right below B", bound == booked - 1),
            ("further below B", bound < booked - 1),
            ("the peak below B", bound == self.peak),
            ("in use or more, below B", bound >= before.in_use()),
            ("below what is in use", bound < before.in_use()),
        ]);
    }

    /// Takes note of each way that holds.
    fn note_all(&mut self, ways: &[(&'static str, bool)]) {
        for &(way, _) in ways.iter().filter(|&&(_, holds)| holds) {
            self.seen.note(way);
        }
    }

    fn ask_stream(&mut self, stream: &[u8]) {
        (self.plan, self.changes) = (Plan::new(), 0);
        ask_each(stream, |bytes, place| self.ask(bytes, place, 64));
    }

    fn ask_list(&mut self, list: &[Asking]) {
        (self.plan, self.changes) = (Plan::new(), 0);
        for asking in list {
            self.ask(&asking.bytes, asking.place, asking.starts_len);
        }
    }
}

/// Where 08 is cut.
fn cut(operands: usize, phase: Phase) -> &'static str {
    match (operands, phase) {
        (0, Phase::Running) => "cut behind its byte",
        (1, Phase::Running) => "cut behind one operand byte",
        (2, Phase::Running) => "cut behind two operand bytes",
        (_, Phase::Running) => "cut behind three operand bytes",
        _ => "cut outside running",
    }
}

/// Where 08 was out of turn.
fn out_of_turn_in(phase: Phase) -> &'static str {
    match phase {
        Phase::Empty => "in empty",
        Phase::Steps => "in steps",
        Phase::Orders => "in orders",
        Phase::Running => panic!("08 is out of turn in running"),
        Phase::Ready => "in ready",
        Phase::Over => "in over",
    }
}

#[test]
fn in_streams() {
    let mut bounds = Bounds::default();
    for stream in (0..1000).map(stream) {
        bounds.ask_stream(&stream);
    }
    bounds.seen.check(&[
        ("the same", 1200),
        ("larger", 600),
        ("smaller", 800),
        ("the peak", 300),
        ("B", 800),
        ("the peak and B", 400),
        ("one above both", 200),
        ("the largest", 80),
        ("0", 100),
        ("none waits", 1200),
        ("nothing is booked", 1000),
        ("booked and not started", 200),
        ("one start", 40),
        ("several starts", 20),
        ("just what the first waiting lacks", 100),
        ("one fewer than that", 80),
        ("behind other changes", 2000),
        ("while only the root runs", 250),
        ("the largest plan", 100),
        ("a report behind a change", 8000),
        ("a plan behind one with changes", 200),
        ("right below the peak", 10),
        ("further below the peak", 8),
        ("below the peak and B", 10),
        ("below the peak, not B", 2),
        ("the peak's task has ended", 6),
        ("right below B", 2),
        ("further below B", 1),
        ("the peak below B", 1),
        ("in ready", 3),
        ("in over", 2),
    ]);
}

#[test]
fn in_askings() {
    let mut bounds = Bounds::default();
    for list in (0..200).map(askings) {
        bounds.ask_list(&list);
    }
    bounds.ask_list(&many_askings(1, 50_000));
    bounds.seen.check(&[
        ("the same", 150),
        ("larger", 150),
        ("smaller", 150),
        ("the peak", 25),
        ("B", 50),
        ("the peak and B", 60),
        ("one above both", 50),
        ("the largest", 20),
        ("0", 40),
        ("none waits", 250),
        ("nothing is booked", 120),
        ("booked and not started", 50),
        ("one start", 10),
        ("several starts", 5),
        ("just what the first waiting lacks", 30),
        ("one fewer than that", 25),
        ("behind other changes", 250),
        ("while only the root runs", 50),
        ("the largest plan", 20),
        ("a report behind a change", 2000),
        ("a plan behind one with changes", 50),
        ("right below the peak", 100),
        ("further below the peak", 300),
        ("0 below the peak", 100),
        ("B below the peak", 25),
        ("below the peak and B", 300),
        ("below the peak, not B", 25),
        ("the peak's task has ended", 150),
        ("right below B", 50),
        ("further below B", 70),
        ("the peak below B", 35),
        ("in use or more, below B", 80),
        ("below what is in use", 30),
        ("in empty", 10),
        ("in steps", 400),
        ("in orders", 600),
        ("in ready", 8),
        ("in over", 40),
        ("a short list", 100),
        ("cut behind its byte", 40),
        ("cut behind one operand byte", 40),
        ("cut behind two operand bytes", 40),
        ("cut behind three operand bytes", 40),
        ("cut outside running", 200),
    ]);
}

#[test]
fn cut_streams_end_behind_changes() {
    let mut bounds = Bounds::default();
    let mut seen = Seen::default();
    for stream in (0..400).map(cut_stream) {
        bounds.ask_stream(&stream);
        if bounds.changes > 0 {
            seen.note(match bounds.plan.phase() {
                Phase::Running => "running",
                Phase::Ready => "ready",
                Phase::Over => "over",
                phase => panic!("changes of a plan in {phase:?}"),
            });
        }
    }
    seen.check(&[("running", 10), ("ready", 8), ("over", 5)]);
}
