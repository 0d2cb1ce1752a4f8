//! DONE: a task has ended.

use crate::answer::Answer;
use crate::figures::Standing;
use crate::phase::Phase;
use crate::plan::Plan;
use crate::record::index;
use crate::refusal::Refusal;

impl Plan {
    /// DONE shares out, books ahead and starts. When the root ends the phase
    /// is ready.
    pub(crate) fn done(&mut self, task: u16, starts: &mut [u16]) -> Result<Answer, Refusal> {
        if self.phase != Phase::Running {
            return Err(Refusal::OutOfTurn);
        }
        self.check_number(task)?;
        if self.figures[index(task)].standing != Standing::Running {
            return Err(Refusal::NotRunning);
        }
        self.finish(index(task));
        let offers = self.dispatch(index(task));
        self.activate();
        let starts = self.start(starts);
        if self.finished == self.tasks {
            self.phase = Phase::Ready;
        }
        Ok(Answer {
            starts,
            offers,
            ..Answer::default()
        })
    }

    /// The task leaves its processor and its out stays in use; its parent has
    /// one child less to wait for.
    fn finish(&mut self, task: usize) {
        self.figures[task].standing = Standing::Finished;
        self.running -= 1;
        self.finished += 1;
        let record = self.records[task];
        self.in_use -= self.figures[task].need - u32::from(record.out);
        if let Some(parent) = record.parent_index() {
            let figures = &mut self.figures[parent];
            figures.unfinished_children -= 1;
            if figures.unfinished_children == 0 && figures.standing == Standing::Activated {
                self.available.insert(self.execution.place(record.parent));
            }
        }
    }
}
