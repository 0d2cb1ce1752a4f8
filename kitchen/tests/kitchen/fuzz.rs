//! The reader of texts on random edits of the examples: whatever is typed, it ends
//! well, tells a place that is there, and what was accepted is read back the same.

use crate::menu::{example, file, run};
use kitchen::day::Day;
use kitchen::explain;
use kitchen::message::Message;
use kitchen::paint::Paint;
use kitchen::picture::{draw, page, terminal, Timeline};
use kitchen::script::refused;
use kitchen::tell;
use kitchen::text::{one_line, stream, Given, Heard, Question, Reader, Said};
use peer::generate::Random;

/// How many edits are tried; more where a variable says so.
const EDITS: usize = 3_000;
const EDITS_WANTED: &str = "FUZZ_EDITS";
/// Every so many a day is drawn too.
const DRAWN_EVERY: usize = 10;

const EXAMPLES: [&str; 6] = [
    "plan-a",
    "breakfast",
    "lunch",
    "cleaning",
    "platter",
    "ward-lunch",
];

/// Words of the text, numbers at their limits, and things that go wrong.
const WORDS: [&str; 44] = [
    "plan",
    "step",
    "steps",
    "stations",
    "places",
    "parent",
    "work",
    "out",
    "minutes",
    "activation",
    "execution",
    "found",
    "begin",
    "done",
    "fetch",
    "at",
    "09:42",
    "24:00",
    "why",
    "standing",
    "if",
    "help",
    "-",
    "0",
    "1",
    "2",
    "3",
    "20",
    "64",
    "65",
    "1024",
    "1025",
    "65535",
    "65536",
    "4294967295",
    "4294967296",
    "soup:",
    "trolley",
    "\"Ward",
    "\"",
    "#",
    ":",
    "\u{202e}",
    "\u{feff}",
];

/// A text with some random edits.
fn edited(text: &str, random: &mut Random) -> String {
    let mut bytes = text.as_bytes().to_vec();
    for _ in 0..random.between(1, 8) {
        if bytes.is_empty() {
            break;
        }
        let place = random.below(bytes.len());
        let end = (place + random.below(40)).min(bytes.len());
        match random.between(0, 7) {
            0 => bytes[place] ^= 1 << random.between(0, 7),
            1 => drop(bytes.drain(place..end)),
            2 => {
                let copy = bytes[place..end].to_vec();
                let to = random.below(bytes.len());
                drop(bytes.splice(to..to, copy));
            }
            3 | 4 => {
                let word = format!(" {} ", random.pick(&WORDS));
                drop(bytes.splice(place..place, word.bytes()));
            }
            5 => drop(bytes.splice(place..end, random.bytes(12))),
            6 => bytes.insert(place, b'\n'),
            _ => swap_lines(&mut bytes, random),
        }
    }
    String::from_utf8_lossy(&bytes).into_owned()
}

fn swap_lines(bytes: &mut Vec<u8>, random: &mut Random) {
    let mut lines: Vec<Vec<u8>> = bytes
        .split_inclusive(|&byte| byte == b'\n')
        .map(<[u8]>::to_vec)
        .collect();
    let (one, other) = (random.below(lines.len()), random.below(lines.len()));
    lines.swap(one, other);
    *bytes = lines.concat();
}

/// What came of a text that goes on behind everything wrong.
#[derive(Default)]
struct Came {
    day: Day,
    /// The lines of all that was accepted.
    accepted: String,
    bytes: Vec<u8>,
    messages: usize,
}

impl Came {
    fn of(text: &str) -> Came {
        let (mut came, mut reader) = (Came::default(), Reader::default());
        for line in text.lines() {
            let heard = reader.line(line, &came.day.sheet);
            came.hear(heard);
        }
        let heard = reader.end(&came.day.sheet);
        came.hear(heard);
        came
    }

    fn hear(&mut self, heard: Heard) {
        for said in heard.said {
            match said {
                Said::Command(given) => self.give(&given),
                Said::Find(order, place) => {
                    let entry = |&step: &u16| Given::plain(order.entry(step), place.clone());
                    let found = self.day.found(order).unwrap_or_default();
                    found.iter().map(entry).for_each(|given| self.give(&given));
                }
                Said::Ask(Question::Why(steps), _) => {
                    steps
                        .iter()
                        .for_each(|&step| drop(tell::why(&self.day, step)));
                }
                Said::Ask(..) => {}
            }
        }
        if let Some(fault) = heard.fault {
            self.tell(&Message::of_fault("fuzzed", fault));
        }
    }

    fn give(&mut self, given: &Given) {
        match self.day.give(given) {
            Ok(_) => {
                self.accepted += &one_line(given, self.day.sheet.steps.len());
                self.accepted.push('\n');
                self.bytes.extend_from_slice(&given.command.encode());
            }
            Err(refusal) => {
                let explained = explain::refusal(&self.day, given.command, refusal, None);
                self.tell(&refused("fuzzed", given.place.clone(), refusal, explained));
            }
        }
    }

    /// A message is whole: its place is in the text, and a terminal obeys nothing in
    /// it.
    fn tell(&mut self, message: &Message) {
        let text = message.text(Paint::OFF);
        assert!(text.lines().count() <= 4, "{text}");
        assert!(
            text.chars()
                .all(|letter| letter == '\n' || !letter.is_control()),
            "{text:?}"
        );
        assert!(message.json().chars().all(|letter| !letter.is_control()));
        self.messages += 1;
    }
}

#[test]
fn random_edits() {
    let wanted = std::env::var(EDITS_WANTED).map_or(EDITS, |edits| edits.parse().unwrap());
    let random = &mut Random::new(100_000);
    let (mut messages, mut moments, mut drawn) = (0, 0, 0);
    for edit in 0..wanted {
        let text = edited(&example(random.pick(&EXAMPLES)), random);
        let came = Came::of(&text);
        let read_back = stream(&came.accepted);
        assert_eq!(read_back, (came.bytes, None), "from the text\n{text}");
        messages += came.messages;
        moments += came.day.moments.len();
        if edit % DRAWN_EVERY == 0 {
            if let Ok(timeline) = Timeline::of(came.day) {
                assert!(draw(&timeline).svg.ends_with("</svg>\n"));
                assert_eq!(page(&timeline).matches("</script>").count(), 1);
                assert!(!terminal(&timeline, Some(0), Paint::OFF).is_empty());
                drawn += 1;
            }
        }
    }
    println!("{wanted} edits: {messages} messages, {moments} moments, {drawn} days drawn");
    assert!(
        messages > wanted && moments > wanted && drawn > wanted / 100,
        "{messages} {moments} {drawn}"
    );
}

/// The program itself ends with a status and no panic, whatever it is given.
#[test]
fn the_program_on_edits() {
    let random = &mut Random::new(5);
    let journal = format!("{}/fuzz.journal", env!("CARGO_TARGET_TMPDIR"));
    for _ in 0..12 {
        let text = edited(&example(random.pick(&EXAMPLES)), random);
        let name = file("fuzzed.plan", text.as_bytes());
        for arguments in [
            &["run", &name][..],
            &["run", "--go-on", "--plain", &name],
            &["run", "--json", "--go-on", &name],
            &["check", &name],
            &["why", &name],
            &["order", &name],
            &["peak", &name],
            &["write", &name],
            &["read", &name],
            &["simulate", &name],
            &["sweep", &name, "--places", "0..40"],
            &["picture", &name],
            &["picture", "--terminal", &name],
            &["run", &name, "--keep", &journal],
        ] {
            let ended = run(arguments, b"");
            assert!((0..=3).contains(&ended.status), "{arguments:?}");
            assert!(!ended.errors.contains("panicked"), "{}", ended.errors);
            assert!(
                ended.status != 0 || ended.errors.is_empty(),
                "{arguments:?} {}",
                ended.errors
            );
        }
        let _ = std::fs::remove_file(&journal);
    }
}

/// Bytes that are no text at all.
#[test]
fn garbage() {
    let random = &mut Random::new(6);
    for _ in 0..20 {
        let garbage: Vec<u8> = (0..5_000).map(|_| random.between(0, 255) as u8).collect();
        for arguments in [
            &["run"][..],
            &["check", "-"],
            &["order"],
            &["picture"],
            &["read"],
        ] {
            let ended = run(arguments, &garbage);
            assert!([1, 2].contains(&ended.status), "{arguments:?}");
            assert!(ended.errors.lines().count() <= 4, "{}", ended.errors);
        }
    }
    let many: String =
        "plan stations 1 places 9\n".to_string() + &"step parent - work 1 out 1\n".repeat(2_000);
    let ended = run(&["run"], many.as_bytes());
    assert!(ended
        .errors
        .starts_with("standard input:1026:1: a plan has at most 1024 steps\n"));
    assert_eq!(ended.status, 2);
    let told = run(&["run"], b"plan steps 2000 stations 1 places 9\n").errors;
    assert!(told
        .starts_with("standard input:1:12: 'steps' wants a number from 1 to 1024, found '2000'\n"));
}
