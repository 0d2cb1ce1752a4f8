//! A text read line by line into a day: what comes next, once all ahead of it
//! was answered.

use crate::console::Stop;
use crate::day::Day;
use crate::explain::Explained;
use crate::input::Input;
use crate::message::{Message, Status};
use crate::text::{Fault, Given, Order, Place, Question, Reader, Said};
use cephlouk::{Command, Refusal};
use std::collections::VecDeque;

/// What a text says next.
pub enum Next {
    Command(Given),
    Ask(Question, Place),
    /// A wrong line, or an order that cannot be found. The text goes on behind
    /// it.
    Wrong(Message),
    End,
}

pub struct Script {
    pub input: Input,
    reader: Reader,
    said: VecDeque<Said>,
    fault: Option<Fault>,
    is_at_end: bool,
}

impl Script {
    pub fn of(input: Input) -> Script {
        Script {
            input,
            reader: Reader::default(),
            said: VecDeque::new(),
            fault: None,
            is_at_end: false,
        }
    }

    /// What comes next in a day that has taken up, or was refused, all before.
    pub fn next(&mut self, day: &Day) -> Result<Next, Stop> {
        loop {
            match self.said.pop_front() {
                Some(Said::Command(given)) => return Ok(Next::Command(given)),
                Some(Said::Ask(question, place)) => return Ok(Next::Ask(question, place)),
                Some(Said::Find(order, place)) => match day.found(order) {
                    Ok(steps) => self.put_ahead(order, &steps, &place),
                    Err(refusal) => return Ok(Next::Wrong(self.not_found(day, refusal, place))),
                },
                None => {}
            }
            if !self.said.is_empty() {
                continue;
            }
            if let Some(fault) = self.fault.take() {
                return Ok(Next::Wrong(Message::of_fault(&self.input.shown, fault)));
            }
            if self.is_at_end {
                return Ok(Next::End);
            }
            self.read(day)?;
        }
    }

    /// Whether the next line has to be waited for.
    pub fn waits(&self) -> bool {
        self.said.is_empty() && self.fault.is_none() && !self.input.has_line()
    }

    /// A plan was refused: its steps have no plan to belong to.
    pub fn drop_steps(&mut self) {
        let is_step = |said: &Said| matches!(said, Said::Command(given) if matches!(given.command, Command::Step { .. }));
        while self.said.front().is_some_and(is_step) {
            self.said.pop_front();
        }
    }

    /// Reads a line, or the end.
    fn read(&mut self, day: &Day) -> Result<(), Stop> {
        let heard = match self.input.line()? {
            Some(line) => self.reader.line(&line, &day.sheet),
            None => {
                self.is_at_end = true;
                self.reader.end(&day.sheet)
            }
        };
        self.said.extend(heard.said);
        self.fault = heard.fault;
        Ok(())
    }

    /// The entries of an order that was found come next.
    fn put_ahead(&mut self, order: Order, steps: &[u16], place: &Place) {
        for &step in steps.iter().rev() {
            let given = Given::plain(order.entry(step), place.clone());
            self.said.push_front(Said::Command(given));
        }
    }

    fn not_found(&self, day: &Day, refusal: Refusal, place: Place) -> Message {
        let explained = crate::explain::no_order(day, refusal);
        refused(&self.input.shown, place, refusal, explained)
    }
}

/// What is told of a refusal at a place in a text.
pub fn refused(file: &str, place: Place, refusal: Refusal, explained: Explained) -> Message {
    Message {
        place: Some(place),
        refused: Some(refusal.number()),
        help: explained.help,
        ..Message::new(Status::Refused, explained.what).about(file)
    }
}
