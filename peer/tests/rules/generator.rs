//! The generator: the same bytes for the same seed, and every kind of input.

use crate::menu::ask;
use peer::generate::{askings, cut_stream, encode, many_askings, stream, Random};
use peer::{decode, Answer, Command, Phase, Plan};
use std::collections::{BTreeMap, BTreeSet};

#[test]
fn the_same_seed_gives_the_same_bytes() {
    for seed in 0..20 {
        assert_eq!(stream(seed), stream(seed));
        assert_eq!(cut_stream(seed), cut_stream(seed));
        assert_eq!(askings(seed), askings(seed));
        assert_eq!(many_askings(seed, 500), many_askings(seed, 500));
    }
    assert_ne!(stream(1), stream(2));
}

#[test]
fn a_cut_stream_is_the_front_of_its_stream() {
    let mut cut = 0;
    for seed in 0..100 {
        let (whole, front) = (stream(seed), cut_stream(seed));
        assert!(whole.starts_with(&front));
        cut += usize::from(front.len() < whole.len());
    }
    assert!(cut > 50);
}

#[test]
fn encoding_is_the_reverse_of_decoding() {
    let mut random = Random::new(7);
    let mut read = 0;
    while read < 2000 {
        let mut bytes = random.bytes(12);
        if let Some(first) = bytes.first_mut() {
            *first %= 9;
        }
        if let Ok((command, used)) = decode(&bytes, 0) {
            assert_eq!(encode(command), bytes[..used]);
            read += 1;
        }
    }
}

/// Where a stream ends: the number of its refusal, or that of "no byte left"
/// with the phase in which the input ended between commands.
fn end(stream: &[u8]) -> (u8, Option<Phase>, BTreeSet<u16>) {
    let mut plan = Plan::new();
    let mut sizes = BTreeSet::new();
    let mut place = 0;
    loop {
        let (answer, _) = ask(&mut plan, stream, place, 64);
        if answer.number != 0 {
            let phase = (place == stream.len()).then_some(plan.phase());
            return (answer.number, phase, sizes);
        }
        if let Ok((Command::Plan { tasks, .. }, _)) = decode(stream, place) {
            sizes.insert(tasks);
        }
        place += answer.used;
    }
}

#[test]
fn streams_end_in_every_way() {
    let mut numbers = BTreeSet::new();
    let mut phases = Vec::new();
    let mut sizes = BTreeSet::new();
    for (number, phase, opened) in (0..500).map(|seed| end(&stream(seed))) {
        match phase {
            Some(phase) => phases.push(phase),
            None => {
                numbers.insert(number);
            }
        }
        sizes.extend(opened);
    }
    assert_eq!(numbers, (1..=9).chain([13]).collect());
    let ended_in = |wanted| phases.iter().filter(|&&phase| phase == wanted).count();
    assert!(ended_in(Phase::Over) > 100 && ended_in(Phase::Ready) > 20);
    assert!(sizes.contains(&1) && sizes.contains(&1024));
}

#[test]
fn askings_go_on_after_every_refusal() {
    let mut numbers = BTreeSet::new();
    let (mut ready, mut over) = (0, 0);
    for seed in 0..100 {
        let mut plan = Plan::new();
        for asking in askings(seed) {
            let (answer, _) = ask(&mut plan, &asking.bytes, asking.place, asking.starts_len);
            numbers.insert(answer.number);
        }
        ready += usize::from(plan.phase() == Phase::Ready);
        over += usize::from(plan.phase() == Phase::Over);
    }
    assert_eq!(numbers, (0..=10).chain([13]).collect());
    assert!(over > 65 && ready > 5, "{over} {ready}");
}

/// How often each way was seen.
#[derive(Debug, Default)]
pub struct Seen(BTreeMap<&'static str, usize>);

impl Seen {
    pub fn note(&mut self, way: &'static str) {
        *self.0.entry(way).or_default() += 1;
    }

    /// Each of these ways was seen at least so often.
    pub fn check(&self, least: &[(&str, usize)]) {
        for &(way, least) in least {
            assert!(self.0.get(way) >= Some(&least), "{way}: {self:?}");
        }
    }
}

/// Asks for one command of a stream after another, up to one that is refused.
pub fn ask_each(stream: &[u8], mut ask: impl FnMut(&[u8], usize) -> Answer) {
    let mut place = 0;
    loop {
        let answer = ask(stream, place);
        if answer.number != 0 {
            return;
        }
        place += answer.used;
    }
}

/// How often BEGIN was answered in which way, by how much of the execution order
/// the plan had; only where all but that order is in turn for BEGIN.
#[derive(Default)]
struct Begins {
    plan: Plan,
    tasks: usize,
    activation: usize,
    execution: usize,
    /// Whether a BEGIN came while there was no 04.
    came_without: bool,
    seen: Seen,
}

impl Begins {
    /// Asks the plan, and takes note of what was accepted and how it began.
    fn ask(&mut self, bytes: &[u8], place: usize, starts_len: usize) -> Answer {
        let in_orders = self.plan.phase() == Phase::Orders;
        let counts = in_orders && self.activation == self.tasks && starts_len >= Plan::STARTS;
        let answer = self.plan.command(bytes, place, &mut vec![0; starts_len]);
        match (decode(bytes, place), answer.number) {
            (Ok((Command::Plan { tasks, .. }, _)), 0) => {
                self.tasks = tasks.into();
                (self.activation, self.execution) = (0, 0);
                self.came_without = false;
            }
            (Ok((Command::Activation(_), _)), 0) => self.activation += 1,
            (Ok((Command::Execution(_), _)), 0) => self.execution += 1,
            (Ok((Command::Begin, _)), number) if counts => {
                self.seen.note(self.way(number));
                self.came_without |= self.execution == 0;
            }
            _ => {}
        }
        answer
    }

    /// The way in which BEGIN was answered.
    fn way(&self, number: u8) -> &'static str {
        let (entries, all) = (self.execution, self.tasks);
        match number {
            0 if entries == 0 && all == 1 => "no 04, one task",
            0 if entries == 0 => "no 04",
            0 => "all",
            3 if entries == 0 => panic!("refused 3 without 04"),
            3 if entries == 1 => "one 04, out of turn",
            3 if entries == all - 1 => "all but one, out of turn",
            3 => "some, out of turn",
            _ if entries == 0 => "no 04, refused",
            _ if self.came_without => "all, refused before and after",
            _ => "all, refused",
        }
    }
}

#[test]
fn streams_begin_with_and_without_an_execution_order() {
    let mut begins = Begins::default();
    for stream in (0..1000).map(stream) {
        begins.plan = Plan::new();
        ask_each(&stream, |bytes, place| begins.ask(bytes, place, 64));
    }
    begins.seen.check(&[
        ("all", 600),
        ("no 04", 200),
        ("no 04, one task", 20),
        ("one 04, out of turn", 10),
        ("some, out of turn", 5),
        ("all but one, out of turn", 10),
        ("all, refused", 50),
        ("no 04, refused", 15),
    ]);
}

#[test]
fn askings_begin_with_and_without_an_execution_order() {
    let mut begins = Begins::default();
    for list in (0..300).map(askings) {
        begins.plan = Plan::new();
        for asking in list {
            begins.ask(&asking.bytes, asking.place, asking.starts_len);
        }
    }
    begins.seen.check(&[
        ("all", 200),
        ("no 04", 80),
        ("no 04, one task", 5),
        ("one 04, out of turn", 10),
        ("some, out of turn", 100),
        ("all but one, out of turn", 20),
        ("all, refused", 60),
        ("no 04, refused", 20),
        ("all, refused before and after", 10),
    ]);
}
