//! From the lines of a text to what they say.

use super::day_lines::read_other;
use super::draft::Draft;
use super::nearest::nearest;
use super::place::Fault;
use super::plan_lines::{read_plan, read_step};
use super::questions::read_question;
use super::said::Said;
use super::visible::quoted;
use super::words::{Word, Words};
use crate::sheet::Sheet;
use cephlouk::Command;
use std::borrow::Cow;

/// The lines of a text.
pub const LINES: [&str; 8] = [
    "plan [\"TITLE\"] [steps N] stations N places N",
    "step [N] [NAME]: parent STEP work N out N [minutes N]",
    "activation STEP ...   or   activation found",
    "execution STEP ...    or   execution found",
    "begin [at HH:MM]",
    "done STEP ... [at HH:MM]",
    "places N [at HH:MM]",
    "fetch [at HH:MM]",
];

/// What may be typed between the lines of a day.
pub const QUESTIONS: [&str; 4] = ["why [STEP ...]", "standing", "if LINE", "help"];

/// Reads a text line by line.
#[derive(Default)]
pub struct Reader {
    /// How many lines were read.
    lines: usize,
    draft: Draft,
}

/// What lines say, up to a fault.
#[derive(Default)]
pub struct Heard {
    pub said: Vec<Said>,
    pub fault: Option<Fault>,
}

impl Reader {
    /// What is to be told after the next line; a wrong line says nothing. The
    /// sheet has what was accepted of the lines before.
    pub fn line(&mut self, text: &str, sheet: &Sheet) -> Heard {
        self.lines += 1;
        let mut heard = Heard::default();
        let result = Words::of(self.lines, text)
            .and_then(|mut words| self.read(&mut words, sheet, &mut heard.said));
        heard.fault = result.err();
        heard
    }

    /// What is to be told at the end of the text.
    pub fn end(&mut self, sheet: &Sheet) -> Heard {
        let mut heard = Heard::default();
        heard.fault = self.draft.close(sheet, &mut heard.said).err();
        heard
    }

    fn read(
        &mut self,
        words: &mut Words,
        sheet: &Sheet,
        said: &mut Vec<Said>,
    ) -> Result<(), Fault> {
        let Some(first) = words.take() else {
            return Ok(());
        };
        match &*first.text {
            "step" => {
                let (given, parent) = read_step(&self.draft, &first, words, sheet)?;
                self.draft.hold_step(given, parent, sheet);
                self.draft.release(sheet, said);
            }
            "why" | "standing" | "if" | "help" => said.push(read_question(&first, words, sheet)?),
            "plan" => {
                self.draft.close(sheet, said)?;
                let given = read_plan(&first, words)?;
                match given.command {
                    Command::Plan { steps: 0, .. } => self.draft.hold_plan(given),
                    _ => said.push(Said::Command(given)),
                }
            }
            _ => {
                self.draft.close(sheet, said)?;
                // A plan that has just been told has its names in no sheet yet.
                said.extend(read_other(&first, words, &after(said, sheet))?);
            }
        }
        Ok(())
    }
}

/// The sheet once all that is said was taken up.
fn after<'a>(said: &[Said], sheet: &'a Sheet) -> Cow<'a, Sheet> {
    let mut after = Cow::Borrowed(sheet);
    for one in said {
        if let Said::Command(given) = one {
            after.to_mut().take(given);
        }
    }
    after
}

/// The word begins no line.
pub fn no_command(word: &Word) -> Fault {
    let fault = Fault::new(&word.place, format!("{} is no command", quoted(&word.text)));
    let known = LINES
        .iter()
        .chain(&QUESTIONS)
        .filter_map(|line| line.split(' ').next());
    match nearest(&word.text, known) {
        Some(known) => fault.helped(format!("is '{known}' meant?")),
        None => fault,
    }
}
