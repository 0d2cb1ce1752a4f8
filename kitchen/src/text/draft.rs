//! Lines of a plan that are held back. A plan may leave out how many steps it
//! has, and a step may name a parent that comes later; what a line says is told
//! as soon as it, and all ahead of it, are whole.

use super::nearest::nearest;
use super::place::Fault;
use super::said::{Given, Said};
use super::visible::quoted;
use super::words::Word;
use crate::sheet::Sheet;
use cephlouk::{Command, Plan};
use std::collections::{HashMap, VecDeque};
use std::rc::Rc;

/// The most steps of a plan.
pub const MOST_STEPS: u16 = Plan::MAX_TASKS as u16;

/// What is held back.
#[derive(Default)]
pub struct Draft {
    /// A plan that does not say how many steps it has.
    plan: Option<Given>,
    steps: VecDeque<Held>,
    /// The numbers of the steps held back, by their names.
    names: HashMap<Rc<str>, u16>,
}

/// A step, and its parent where it is named and not known yet.
struct Held {
    given: Given,
    parent: Option<Word>,
}

impl Draft {
    /// Whether it has a plan that does not say how many steps it has.
    pub fn is_uncounted(&self) -> bool {
        self.plan.is_some()
    }

    /// The number of the next step.
    pub fn next_step(&self, sheet: &Sheet) -> usize {
        let accepted = if self.is_uncounted() {
            0
        } else {
            sheet.steps.len()
        };
        accepted + self.steps.len() + 1
    }

    /// How many steps the plan has, as far as it is known.
    pub fn count(&self, sheet: &Sheet) -> u16 {
        if self.is_uncounted() {
            MOST_STEPS
        } else {
            sheet.count
        }
    }

    /// The step of a name, held back or accepted.
    pub fn named(&self, name: &str, sheet: &Sheet) -> Option<u16> {
        let held = self.names.get(name).copied();
        held.or_else(|| sheet.named(name).filter(|_| !self.is_uncounted()))
    }

    /// Holds a plan back until its steps can be counted.
    pub fn hold_plan(&mut self, plan: Given) {
        self.plan = Some(plan);
    }

    /// Holds a step back; its parent is named where it is not known yet.
    pub fn hold_step(&mut self, given: Given, parent: Option<Word>, sheet: &Sheet) {
        if let Some(name) = &given.name {
            self.names
                .insert(name.clone(), self.next_step(sheet) as u16);
        }
        self.steps.push_back(Held { given, parent });
    }

    /// Tells what is whole, up to the first that is not.
    pub fn release(&mut self, sheet: &Sheet, said: &mut Vec<Said>) {
        while let (None, Some(first)) = (&self.plan, self.steps.front()) {
            match &first.parent {
                Some(word) if self.named(&word.text, sheet).is_none() => return,
                _ => {}
            }
            if let Some(held) = self.steps.pop_front() {
                said.push(Said::Command(self.whole(held, sheet)));
            }
        }
        if self.steps.is_empty() {
            self.names.clear();
        }
    }

    /// All steps of the plan were given: tells what was held back. Where it will
    /// never be whole, nothing of it is told.
    pub fn close(&mut self, sheet: &Sheet, said: &mut Vec<Said>) -> Result<(), Fault> {
        let result = self.check(sheet);
        if result.is_ok() {
            if let Some(mut plan) = self.plan.take() {
                if let Command::Plan { steps, .. } = &mut plan.command {
                    *steps = self.steps.len() as u16;
                }
                said.push(Said::Command(plan));
                // The names accepted so far are those of the plan before.
                self.release(&Sheet::default(), said);
            }
            self.release(sheet, said);
        }
        *self = Draft::default();
        result
    }

    /// The first fault in what is held back.
    fn check(&self, sheet: &Sheet) -> Result<(), Fault> {
        let count = self.steps.len() as u16;
        if let Some(plan) = self.plan.as_ref().filter(|_| count == 0) {
            return Err(Fault::new(&plan.place, "the plan has no step"));
        }
        for Held { given, parent } in &self.steps {
            match (parent, given.command) {
                (Some(word), _) if self.named(&word.text, sheet).is_none() => {
                    return Err(self.unknown(word, sheet));
                }
                (None, Command::Step { parent, .. }) if self.is_uncounted() && parent > count => {
                    let what = format!("there is no step {parent}: the plan has {count}");
                    return Err(Fault::new(&given.place, what));
                }
                _ => {}
            }
        }
        Ok(())
    }

    /// A step whose parent is known.
    fn whole(&self, held: Held, sheet: &Sheet) -> Given {
        let mut given = held.given;
        let named = held.parent.and_then(|word| self.named(&word.text, sheet));
        if let (Some(step), Command::Step { parent, .. }) = (named, &mut given.command) {
            *parent = step;
        }
        given
    }

    /// No step has the name that a word says.
    pub fn unknown(&self, word: &Word, sheet: &Sheet) -> Fault {
        let fault = Fault::new(
            &word.place,
            format!("no step is named {}", quoted(&word.text)),
        );
        let accepted = sheet.names().filter(|_| !self.is_uncounted());
        let known = self.names.keys().map(|name| &**name).chain(accepted);
        match nearest(&word.text, known) {
            Some(name) => fault.helped(format!("is {} meant?", quoted(name))),
            None => fault,
        }
    }
}
