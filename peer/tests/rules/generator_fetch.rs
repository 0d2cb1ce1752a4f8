//! The generator around FETCH: asked in every phase, after every kind of root,
//! and what else is asked while the trolley stands.

use crate::generator::{ask_each, Seen};
use peer::generate::{askings, cut_stream, many_askings, stream, Asking};
use peer::{decode, Answer, Command, Phase, Plan};

/// What was seen of ready and of FETCH.
#[derive(Default)]
struct Fetches {
    plan: Plan,
    tasks: u16,
    seen: Seen,
}

impl Fetches {
    /// Asks the plan, and takes note of where and how it was answered.
    fn ask(&mut self, bytes: &[u8], place: usize, starts_len: usize) -> Answer {
        let before = self.plan.phase();
        let answer = self.plan.command(bytes, place, &mut vec![0; starts_len]);
        let command = decode(bytes, place).ok().map(|(command, _)| command);
        match (before, command) {
            (Phase::Ready, _) => self.seen.note(in_ready(answer.number, command)),
            (_, Some(Command::Fetch)) if answer.number == 3 => {
                self.seen.note(out_of_turn_in(before))
            }
            (_, Some(Command::Plan { tasks, .. })) if answer.number == 0 => self.tasks = tasks,
            _ => {}
        }
        if before == Phase::Running && self.plan.phase() == Phase::Ready {
            self.seen.note(trolley(self.plan.booked()));
            if self.tasks == 1024 {
                self.seen.note("the largest plan");
            }
        }
        answer
    }

    fn ask_stream(&mut self, stream: &[u8]) {
        self.plan = Plan::new();
        ask_each(stream, |bytes, place| self.ask(bytes, place, 64));
    }

    fn ask_list(&mut self, list: &[Asking]) {
        self.plan = Plan::new();
        for asking in list {
            self.ask(&asking.bytes, asking.place, asking.starts_len);
        }
    }
}

/// How something was answered in ready.
fn in_ready(number: u8, command: Option<Command>) -> &'static str {
    match (number, command) {
        (0, _) => "FETCH in ready",
        (1, _) => "no byte or a cut one in ready",
        (2, _) => "an unknown byte in ready",
        (10, _) => "a short list in ready",
        (_, Some(Command::Plan { .. })) => "PLAN in ready",
        (_, Some(Command::Done(_))) => "DONE in ready",
        _ => "02 to 05 in ready",
    }
}

/// Where FETCH was out of turn.
fn out_of_turn_in(phase: Phase) -> &'static str {
    match phase {
        Phase::Empty => "FETCH in empty",
        Phase::Steps => "FETCH in steps",
        Phase::Orders => "FETCH in orders",
        Phase::Running => "FETCH in running",
        Phase::Over => "FETCH in over",
        Phase::Ready => panic!("FETCH is refused in ready"),
    }
}

/// What stands in the cold room.
fn trolley(booked: u32) -> &'static str {
    match booked {
        0 => "an empty trolley",
        60_000.. => "a large trolley",
        _ => "a trolley",
    }
}

#[test]
fn in_streams() {
    let mut fetches = Fetches::default();
    for stream in (0..1000).map(stream) {
        fetches.ask_stream(&stream);
    }
    fetches.seen.check(&[
        ("FETCH in ready", 700),
        ("no byte or a cut one in ready", 40),
        ("an unknown byte in ready", 3),
        ("PLAN in ready", 5),
        ("DONE in ready", 5),
        ("02 to 05 in ready", 3),
        ("FETCH in empty", 1),
        ("FETCH in steps", 2),
        ("FETCH in orders", 3),
        ("FETCH in running", 2),
        ("FETCH in over", 5),
        ("an empty trolley", 150),
        ("a trolley", 400),
        ("a large trolley", 150),
        ("the largest plan", 3),
    ]);
}

#[test]
fn in_askings() {
    let mut fetches = Fetches::default();
    for list in (0..200).map(askings) {
        fetches.ask_list(&list);
    }
    fetches.ask_list(&many_askings(1, 50_000));
    fetches.seen.check(&[
        ("FETCH in ready", 300),
        ("no byte or a cut one in ready", 50),
        ("an unknown byte in ready", 20),
        ("a short list in ready", 20),
        ("PLAN in ready", 40),
        ("DONE in ready", 40),
        ("02 to 05 in ready", 40),
        ("FETCH in empty", 10),
        ("FETCH in steps", 200),
        ("FETCH in orders", 200),
        ("FETCH in running", 200),
        ("FETCH in over", 20),
        ("an empty trolley", 60),
        ("a trolley", 150),
        ("a large trolley", 60),
        ("the largest plan", 1),
    ]);
}

#[test]
fn cut_streams_end_in_ready() {
    let mut ready = 0;
    for stream in (0..200).map(cut_stream) {
        let mut fetches = Fetches::default();
        fetches.ask_stream(&stream);
        ready += usize::from(fetches.plan.phase() == Phase::Ready);
    }
    assert!(ready > 10, "{ready}");
}
