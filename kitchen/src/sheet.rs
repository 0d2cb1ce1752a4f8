//! What was given of a plan: its title, its steps with their names and minutes,
//! and its orders.

use crate::text::{Clock, Given};
use cephlouk::{Command, Plan, TaskRecord};
use std::collections::HashMap;
use std::rc::Rc;

/// A step as it was given.
#[derive(Clone, Debug)]
pub struct Step {
    pub record: TaskRecord,
    pub name: Option<Rc<str>>,
    pub minutes: Option<u16>,
}

/// All that was given of the plan that was opened last.
#[derive(Clone, Debug)]
pub struct Sheet {
    pub title: Option<Rc<str>>,
    /// How many steps it will have; the most of any plan where none is open.
    pub count: u16,
    pub stations: u8,
    /// The places in force.
    pub places: u32,
    pub steps: Vec<Step>,
    pub activation: Vec<u16>,
    pub execution: Vec<u16>,
    /// The last time that was told.
    pub at: Option<Clock>,
    names: HashMap<Rc<str>, u16>,
}

impl Default for Sheet {
    fn default() -> Sheet {
        Sheet::new(None, Plan::MAX_TASKS as u16, 0, 0)
    }
}

impl Sheet {
    fn new(title: Option<Rc<str>>, count: u16, stations: u8, places: u32) -> Sheet {
        Sheet {
            title,
            count,
            stations,
            places,
            steps: Vec::new(),
            activation: Vec::new(),
            execution: Vec::new(),
            at: None,
            names: HashMap::new(),
        }
    }

    /// Takes up a command that was accepted.
    pub fn take(&mut self, given: &Given) {
        match given.command {
            Command::Plan {
                steps,
                stations,
                places,
            } => *self = Sheet::new(given.name.clone(), steps, stations, places),
            Command::Step { parent, work, out } => {
                self.steps.push(Step {
                    record: TaskRecord { parent, work, out },
                    name: given.name.clone(),
                    minutes: given.minutes,
                });
                if let Some(name) = &given.name {
                    self.names.insert(name.clone(), self.steps.len() as u16);
                }
            }
            Command::Activation(step) => self.activation.push(step),
            Command::Execution(step) => self.execution.push(step),
            Command::Places(places) => self.places = places,
            _ => {}
        }
        self.at = given.at.or(self.at);
    }

    /// The step of a name.
    pub fn named(&self, name: &str) -> Option<u16> {
        self.names.get(name).copied()
    }

    pub fn names(&self) -> impl Iterator<Item = &str> {
        self.names.keys().map(|name| &**name)
    }

    /// A step, if it was given.
    pub fn step(&self, number: u16) -> Option<&Step> {
        self.steps.get(usize::from(number).checked_sub(1)?)
    }

    /// The number of a step, with its name where it has one.
    pub fn label(&self, number: u16) -> String {
        match self.step(number).and_then(|step| step.name.as_deref()) {
            Some(name) => format!("{number} {name}"),
            None => number.to_string(),
        }
    }

    /// Several of them, as a person lists them.
    pub fn labels(&self, numbers: &[u16]) -> String {
        let labels: Vec<String> = numbers.iter().map(|&step| self.label(step)).collect();
        labels.join(", ")
    }

    pub fn records(&self) -> Vec<TaskRecord> {
        self.steps.iter().map(|step| step.record).collect()
    }

    /// The numbers of all steps.
    pub fn numbers(&self) -> std::ops::RangeInclusive<u16> {
        1..=self.steps.len() as u16
    }

    /// The steps without a parent.
    pub fn roots(&self) -> Vec<u16> {
        let is_root = |&number: &u16| {
            self.step(number)
                .is_some_and(|step| step.record.parent == 0)
        };
        self.numbers().filter(is_root).collect()
    }

    /// The minutes of all steps, or the first that has none.
    pub fn minutes(&self) -> Result<Vec<u32>, u16> {
        let of = |(step, number): (&Step, u16)| step.minutes.map(u32::from).ok_or(number);
        self.steps.iter().zip(1..).map(of).collect()
    }

    /// The order in which steps start where several could: the one given, or the
    /// activation order where there is none.
    pub fn starting_order(&self) -> &[u16] {
        if self.execution.is_empty() {
            &self.activation
        } else {
            &self.execution
        }
    }
}
