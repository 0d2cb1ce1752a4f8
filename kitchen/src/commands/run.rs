//! `cephlouk run`: a day, line by line as it is read or typed.

use super::{Subcommand, DONE};
use crate::answers::answers;
use crate::arguments::{Arguments, Switch};
use crate::console::{Console, Stop};
use crate::day::Day;
use crate::explain;
use crate::input::Input;
use crate::journal::{differs, Journal};
use crate::json::Object;
use crate::lines;
use crate::message::{Message, Status};
use crate::script::{refused, Next, Script};
use crate::tell;
use crate::text::{Given, Place, Question};
use cephlouk::{Command, Phase, Refusal};
use std::collections::VecDeque;
use std::ffi::OsStr;
use std::io::{stderr, Write};

pub static RUN: Subcommand = Subcommand {
    name: "run",
    usage: "[FILE] [--plain] [--go-on] [--keep FILE]",
    about: "a day, line by line as it is read or typed",
    switches: &[&PLAIN, &GO_ON, &KEEP],
    run,
};

static PLAIN: Switch = Switch {
    word: "--plain",
    value: None,
    about: "prints the day printer's lines",
};

static GO_ON: Switch = Switch {
    word: "--go-on",
    value: None,
    about: "goes on behind a wrong line or a refusal, as on a terminal",
};

static KEEP: Switch = Switch {
    word: "--keep",
    value: Some("FILE"),
    about:
        "keeps each accepted command in a journal before it is answered, and takes its day up again",
};

/// Said where somebody types.
const GREETING: &[u8] = b"a plan and its day, line by line; 'help' tells the lines\n";

/// A day that runs, and how it is told.
struct Run<'a> {
    console: &'a mut Console,
    day: Day,
    script: Script,
    journal: Option<Journal>,
    /// What the journal has of a text that is run again, and is still to come.
    expected: VecDeque<Given>,
    is_plain: bool,
    goes_on: bool,
    /// The bytes of all commands so far.
    offset: u64,
    /// The worst that came, where somebody types: nothing, as long as the day
    /// comes to its end.
    worst: u8,
}

fn run(console: &mut Console, arguments: &Arguments) -> Result<u8, Stop> {
    let input = Input::open(arguments.file()?)?;
    let is_typed = input.is_typed();
    if is_typed && !console.is_json {
        let _ = stderr().write_all(GREETING);
    }
    let mut run = Run {
        is_plain: arguments.has(&PLAIN),
        goes_on: is_typed || arguments.has(&GO_ON),
        console,
        day: Day::default(),
        script: Script::of(input),
        journal: None,
        expected: VecDeque::new(),
        offset: 0,
        worst: DONE,
    };
    if let Some(path) = arguments.value(&KEEP) {
        run.keep(path)?;
    }
    run.lines()?;
    run.catch_up()?;
    run.sync()?;
    run.finish()?;
    Ok(if is_typed && run.day.is_over() {
        DONE
    } else {
        run.worst
    })
}

impl Run<'_> {
    /// Keeps the day in a journal, and takes up what it has: a day that is typed
    /// goes on where it was, and a text that is run again says it once more.
    fn keep(&mut self, path: &OsStr) -> Result<(), Stop> {
        let (journal, kept) = Journal::open(path)?;
        if kept.torn > 0 {
            let what = format!(
                "a last record was cut off after {} bytes, and is gone",
                kept.torn
            );
            let help = "it was not answered; give it again";
            let message = Message::new(Status::Failed, what).about(&journal.shown);
            self.console.tell(&message.helped(help))?;
        }
        self.journal = Some(journal);
        if self.script.input.path.is_some() {
            self.expected = kept.given.into();
            return Ok(());
        }
        self.day = kept.day;
        match kept.given.is_empty() {
            true => Ok(()),
            false => self.taken_up(),
        }
    }

    /// What the journal has behind the text.
    fn catch_up(&mut self) -> Result<(), Stop> {
        if self.expected.is_empty() {
            return Ok(());
        }
        for given in std::mem::take(&mut self.expected) {
            // It was accepted when the journal was opened.
            let _ = self.day.give(&given);
        }
        self.taken_up()
    }

    /// How the day stands that was taken up: its last answer may have been kept and
    /// not shown.
    fn taken_up(&mut self) -> Result<(), Stop> {
        if self.is_plain {
            return Ok(());
        }
        self.say(&format!("taken up: {}", lines::standing(&self.day)))?;
        if self.day.plan.phase() == Phase::Running {
            self.say(&tell::running(&self.day))?;
        }
        self.console.flush()
    }

    /// All lines, up to one that is wrong or refused.
    fn lines(&mut self) -> Result<(), Stop> {
        loop {
            match self.script.next(&self.day)? {
                Next::Command(given) => self.give(&given)?,
                Next::Ask(question, place) => self.answer(question, place)?,
                Next::Wrong(message) => self.wrong(message)?,
                Next::End => return Ok(()),
            }
            // Whoever types waits for the answer.
            if self.script.waits() {
                self.console.flush()?;
            }
        }
    }

    fn give(&mut self, given: &Given) -> Result<(), Stop> {
        let is_answered = match self.day.give(given) {
            Ok(moment) => moment.is_some(),
            Err(refusal) => return self.refuse(given, refusal),
        };
        self.offset += given.command.encode().len() as u64;
        if let Some(kept) = self.expected.pop_front() {
            if kept.command != given.command {
                let file = &self.script.input.shown;
                return Err(differs(file, &given.place, &kept.command, &self.day).into());
            }
            return match self.expected.is_empty() {
                true => self.taken_up(),
                false => Ok(()),
            };
        }
        if let Some(journal) = &mut self.journal {
            journal.append(given, self.day.sheet.steps.len())?;
        }
        if is_answered {
            self.sync()?;
            self.show()?;
        }
        Ok(())
    }

    /// What was accepted is on the disk before it is answered, since cooks act at
    /// once; and it is answered before more is kept.
    fn sync(&mut self) -> Result<(), Stop> {
        match &mut self.journal {
            Some(journal) => journal.sync(),
            None => Ok(()),
        }
    }

    /// Shows the last moment.
    fn show(&mut self) -> Result<(), Stop> {
        let Some(moment) = self.day.moments.last() else {
            return Ok(());
        };
        let line = if self.is_plain {
            lines::plain(moment)
        } else if self.console.is_json {
            lines::json(moment)
        } else {
            lines::told(&self.day, moment, self.console.paint)
        };
        self.console.line(&line)?;
        match self.journal {
            Some(_) => self.console.flush(),
            None => Ok(()),
        }
    }

    fn refuse(&mut self, given: &Given, refusal: Refusal) -> Result<(), Stop> {
        if self.is_plain {
            let (number, offset) = (refusal.number(), self.offset);
            self.console
                .line(&format!("refused {number} at {offset}"))?;
        }
        if matches!(given.command, Command::Plan { .. }) {
            self.script.drop_steps();
        }
        let input = &self.script.input;
        let file = input.path.as_ref().map(|_| &*input.shown);
        let explained = explain::refusal(&self.day, given.command, refusal, file);
        let message = refused(&input.shown, given.place.clone(), refusal, explained);
        self.wrong(message)
    }

    /// Something is wrong: the day goes on behind it, or ends here.
    fn wrong(&mut self, message: Message) -> Result<(), Stop> {
        if !self.goes_on {
            return Err(message.into());
        }
        self.worst = self.worst.max(message.status as u8);
        self.console.tell(&message)
    }

    /// A day that ends before it is over is told.
    fn finish(&mut self) -> Result<(), Stop> {
        let what = match self.day.plan.phase() {
            Phase::Over => return Ok(()),
            Phase::Empty => "there is no plan in it".to_string(),
            Phase::Ready => {
                "it ends before its day does: the trolley stands, and 'fetch' is missing"
                    .to_string()
            }
            _ => format!("it ends before its day does: {}", tell::phase(&self.day)),
        };
        let message = Message::new(Status::Refused, what).about(&self.script.input.shown);
        self.worst = self.worst.max(message.status as u8);
        self.console.tell(&match self.day.plan.phase() {
            Phase::Running => message.helped(tell::running(&self.day)),
            _ => message,
        })
    }

    fn answer(&mut self, question: Question, place: Place) -> Result<(), Stop> {
        if self.is_plain {
            let what = format!("'{}' has no answer with {}", place.said(), PLAIN.word);
            let message = Message::new(Status::Wrong, what).about(&self.script.input.shown);
            return self.wrong(Message {
                place: Some(place),
                ..message
            });
        }
        let answers = answers(&self.day, &question, self.console.paint);
        answers.iter().try_for_each(|answer| self.say(answer))
    }

    /// A line in words.
    fn say(&mut self, words: &str) -> Result<(), Stop> {
        match self.console.is_json {
            true => self
                .console
                .line(&Object::new().text("answer", words).end()),
            false => self.console.line(words),
        }
    }
}
