//! Answers to what is typed between the lines of a day. They change nothing.

use crate::day::Day;
use crate::explain;
use crate::lines;
use crate::paint::Paint;
use crate::tell;
use crate::text::{Given, Question, LINES, QUESTIONS};
use cephlouk::Phase;

pub fn answers(day: &Day, question: &Question, paint: Paint) -> Vec<String> {
    match question {
        Question::Why(steps) => why(day, steps),
        Question::Standing => vec![lines::standing(day)],
        Question::If(supposed) => suppose(day, supposed, paint),
        Question::Help => {
            let lines = LINES.iter().chain(&QUESTIONS);
            lines.map(|line| line.to_string()).collect()
        }
    }
}

/// What would come of commands, on a copy.
fn suppose(day: &Day, supposed: &[Given], paint: Paint) -> Vec<String> {
    let mut copy = day.clone();
    let mut answers = Vec::new();
    for given in supposed {
        let answer = match copy.give(given) {
            Ok(_) => copy
                .moments
                .last()
                .map(|moment| lines::told(&copy, moment, paint)),
            Err(refusal) => Some(explain::refusal(&copy, given.command, refusal, None).what),
        };
        answers.extend(answer.map(|answer| format!("if {answer}")));
    }
    answers
}

/// Why steps are not starting; of none said, of all that have not started.
fn why(day: &Day, steps: &[u16]) -> Vec<String> {
    let told = |steps: &[u16]| steps.iter().map(|&step| tell::why(day, step)).collect();
    match (steps, day.plan.phase()) {
        ([], Phase::Running) => match &tell::unstarted(day)[..] {
            [] => vec!["all steps have started".to_string()],
            unstarted => told(unstarted),
        },
        ([], _) => vec![tell::phase(day)],
        (steps, _) => told(steps),
    }
}
