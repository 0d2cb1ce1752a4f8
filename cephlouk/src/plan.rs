//! The plan.

use crate::answer::{Accepted, Answer, Wrote};
use crate::command::Command;
use crate::exported;
use crate::phase::{Phase, Standing};
use crate::reason::Reason;
use crate::refusal::Refusal;
use std::fmt::{self, Debug, Formatter};

/// A plan of at most 1,024 steps and 64 stations with its booking. It is one
/// array of words; every command works where it stands, and nothing is kept
/// outside it. A clone goes its own way:
///
/// ```
/// use cephlouk::{Command, Phase, Plan};
///
/// let mut plan = Plan::new();
/// plan.apply(Command::Plan { steps: 1, stations: 1, places: 0 })?;
/// let mut copy = plan.clone();
/// copy.apply(Command::Step { parent: 0, work: 0, out: 0 })?;
/// assert_eq!(copy.phase(), Phase::Orders);
/// assert_eq!(plan.phase(), Phase::Steps);
/// # Ok::<(), cephlouk::Refusal>(())
/// ```
pub struct Plan {
    words: Box<[u32; Plan::WORDS]>,
    /// The front has what the last accepted command started.
    starts: [u16; Plan::LEAST_STARTS],
}

impl Plan {
    /// The words of a plan.
    pub const WORDS: usize = 18_497;
    /// The most steps.
    pub const MAX_TASKS: usize = 1024;
    /// The most stations.
    pub const MAX_PROCESSORS: usize = 64;
    /// The fewest entries of a start list.
    pub const LEAST_STARTS: usize = 64;
    /// The most bytes of a plan that is written out.
    pub const MOST_BYTES: usize = 8 + 13 * Plan::MAX_TASKS;

    /// An empty plan.
    ///
    /// # Panics
    ///
    /// Where the library that was linked is of another version.
    #[must_use]
    pub fn new() -> Plan {
        exported::test_number();
        let words = vec![0; Plan::WORDS].into_boxed_slice();
        let mut plan = Plan {
            words: words.try_into().expect("so many words"),
            starts: [0; Plan::LEAST_STARTS],
        };
        plan.clear();
        plan
    }

    /// Makes it the empty plan again: all its words are 0.
    pub fn clear(&mut self) {
        // SAFETY: so many words are lent for writing.
        unsafe { exported::cephlouk_plan_empty(self.words.as_mut_ptr()) }
    }

    /// Gives it a command. A refusal changes nothing.
    ///
    /// ```
    /// use cephlouk::{Command, Plan, Refusal};
    ///
    /// let mut plan = Plan::new();
    /// assert_eq!(plan.apply(Command::Done(3)), Err(Refusal::OutOfTurn));
    /// plan.apply(Command::Plan { steps: 1, stations: 1, places: 1 })?;
    /// plan.apply(Command::Step { parent: 0, work: 0, out: 1 })?;
    /// plan.apply(Command::Activation(1))?;
    /// assert_eq!(plan.apply(Command::Begin)?.starts, [1]);
    /// assert_eq!(plan.apply(Command::Done(2)), Err(Refusal::OutsideLimits));
    /// plan.apply(Command::Done(1))?;
    /// # Ok::<(), Refusal>(())
    /// ```
    ///
    /// # Errors
    ///
    /// Why the command is refused: it is not in turn, or what it gives cannot be.
    pub fn apply(&mut self, command: Command) -> Result<Accepted<'_>, Refusal> {
        self.command(&command.encode())
    }

    /// Gives it the command at the front of some bytes, of which it uses as
    /// many as the command has. A refusal changes nothing.
    ///
    /// # Errors
    ///
    /// As for [`Plan::apply`], and where the bytes have no command.
    pub fn command(&mut self, bytes: &[u8]) -> Result<Accepted<'_>, Refusal> {
        self.command_at(bytes, 0)
    }

    /// Gives it the command at a place in some bytes. At a place behind the
    /// last byte there is none, which is refused as cut short.
    ///
    /// ```
    /// use cephlouk::{Phase, Plan, Refusal};
    ///
    /// // One step with no trays, both orders, BEGIN, DONE and FETCH.
    /// let day = [
    ///     0x01, 1, 0, 1, 0, 0, 0, 0, 0x02, 0, 0, 0, 0, 0, 0, 0x03, 1, 0, 0x04, 1, 0, 0x05, 0x06, 1, 0,
    ///     0x07,
    /// ];
    /// let mut plan = Plan::new();
    /// let mut place = 0;
    /// while place < day.len() {
    ///     place += plan.command_at(&day, place)?.used;
    /// }
    /// assert_eq!(plan.phase(), Phase::Over);
    /// assert_eq!(plan.command_at(&day, place), Err(Refusal::CutShort));
    /// # Ok::<(), Refusal>(())
    /// ```
    ///
    /// # Errors
    ///
    /// Those of [`Plan::command`].
    pub fn command_at(&mut self, bytes: &[u8], place: usize) -> Result<Accepted<'_>, Refusal> {
        let answer = ask(&mut self.words, bytes, place, &mut self.starts);
        match answer.refusal() {
            Some(refusal) => Err(refusal),
            None => Ok(Accepted {
                used: answer.used,
                starts: &self.starts[..answer.starts],
                peak: answer.peak,
                by: answer.by,
                offers: answer.offers,
            }),
        }
    }

    /// The same with a start list of the caller's. The steps that start now
    /// are written to its front, and no later entry is touched; a list of
    /// fewer than 64 entries is refused.
    ///
    /// ```
    /// use cephlouk::{Plan, Refusal};
    ///
    /// let answer = Plan::new().command_with(&[0x05], 0, &mut [0; 63]);
    /// assert_eq!(answer.refusal(), Some(Refusal::FewStarts));
    /// ```
    #[inline]
    pub fn command_with(&mut self, bytes: &[u8], place: usize, starts: &mut [u16]) -> Answer {
        ask(&mut self.words, bytes, place, starts)
    }

    /// The phase that it is in.
    #[must_use]
    pub fn phase(&self) -> Phase {
        // SAFETY, here and below: commands led to the words, which are only read.
        Phase::of_number(unsafe { exported::cephlouk_plan_phase(self.words.as_ptr()) })
    }

    /// Trays booked; 0 outside running and ready.
    #[must_use]
    pub fn booked(&self) -> u32 {
        unsafe { exported::cephlouk_plan_booked(self.words.as_ptr()) }
    }

    /// Trays in use; 0 outside running and ready.
    #[must_use]
    pub fn in_use(&self) -> u32 {
        unsafe { exported::cephlouk_plan_in_use(self.words.as_ptr()) }
    }

    /// Trays booked, in thousandths of the places; 0 outside running and ready.
    #[must_use]
    pub fn fullness(&self) -> u32 {
        unsafe { exported::cephlouk_plan_fullness(self.words.as_ptr()) }
    }

    /// How many steps wait, are booked, run and have ended; four zeros outside
    /// running, ready and over.
    #[must_use]
    pub fn standing(&self) -> Standing {
        unsafe { exported::cephlouk_plan_standing(self.words.as_ptr()) }
    }

    /// Why a step is not starting.
    ///
    /// ```
    /// use cephlouk::{Command, Plan, Reason, Refusal};
    ///
    /// let mut plan = Plan::new();
    /// assert_eq!(plan.why(1), Err(Refusal::OutOfTurn));
    /// // Two steps feed the third, and there is one station.
    /// plan.apply(Command::Plan { steps: 3, stations: 1, places: 0 })?;
    /// for parent in [3, 3, 0] {
    ///     plan.apply(Command::Step { parent, work: 0, out: 0 })?;
    /// }
    /// for step in 1..=3 {
    ///     plan.apply(Command::Activation(step))?;
    ///     plan.apply(Command::Execution(step))?;
    /// }
    /// plan.apply(Command::Begin)?;
    /// assert_eq!(plan.why(1), Ok(Reason::Running));
    /// assert_eq!(plan.why(2), Ok(Reason::NoProcessor));
    /// assert_eq!(plan.why(3), Ok(Reason::Unfed(1)));
    /// assert_eq!(plan.why(4), Err(Refusal::OutsideLimits));
    /// plan.apply(Command::Done(1))?;
    /// assert_eq!(plan.why(1), Ok(Reason::Ended));
    /// assert_eq!(plan.why(3), Ok(Reason::Unfed(2)));
    /// # Ok::<(), Refusal>(())
    /// ```
    ///
    /// # Errors
    ///
    /// [`Refusal::OutOfTurn`] outside running, then [`Refusal::OutsideLimits`] for a
    /// number that is no step's.
    pub fn why(&self, step: u16) -> Result<Reason, Refusal> {
        unsafe { exported::cephlouk_plan_why(self.words.as_ptr(), step) }.told()
    }

    /// Writes what was given of it back out, to the front of a list of bytes: PLAN,
    /// the steps, the activation order and the execution order, without BEGIN; M is
    /// the one in force, that of the last 08. The answer is how many bytes were
    /// written; later ones are not touched, and a refusal touches none. An execution
    /// order that is left out is complete from BEGIN on, with the entries of the
    /// activation order.
    ///
    /// However the orders came, the same plan gives the same bytes, and reading
    /// them into an empty plan restores it:
    ///
    /// ```
    /// use cephlouk::{Command, Plan, Refusal};
    ///
    /// let mut plan = Plan::new();
    /// let mut bytes = [0; Plan::MOST_BYTES];
    /// assert_eq!(plan.write(&mut bytes), Err(Refusal::OutOfTurn));
    /// plan.apply(Command::Plan { steps: 1, stations: 1, places: 0 })?;
    /// plan.apply(Command::Step { parent: 0, work: 0, out: 0 })?;
    /// plan.apply(Command::Execution(1))?;
    /// plan.apply(Command::Activation(1))?;
    /// assert_eq!(plan.write(&mut bytes[..20]), Err(Refusal::ShortList));
    /// assert_eq!(plan.write(&mut bytes), Ok(21));
    /// assert_eq!(bytes[15..21], [0x03, 1, 0, 0x04, 1, 0]);
    ///
    /// let mut restored = Plan::new();
    /// let mut place = 0;
    /// while place < 21 {
    ///     place += restored.command_at(&bytes, place)?.used;
    /// }
    /// assert_eq!(restored.words(), plan.words());
    ///
    /// let mut alone = Plan::new();
    /// for place in [0, 8, 15] {
    ///     alone.command_at(&bytes, place)?; // PLAN, its step and 03, no 04
    /// }
    /// assert_eq!(alone.write(&mut bytes), Err(Refusal::OutOfTurn));
    /// alone.apply(Command::Begin)?;
    /// assert_eq!(alone.write(&mut bytes), Ok(21));
    /// assert_eq!(bytes[15..21], [0x03, 1, 0, 0x04, 1, 0]);
    /// # Ok::<(), Refusal>(())
    /// ```
    ///
    /// # Errors
    ///
    /// [`Refusal::OutOfTurn`] until both orders are complete, then
    /// [`Refusal::ShortList`] where the list has fewer than 8 bytes and 13 for each
    /// step.
    pub fn write(&self, list: &mut [u8]) -> Result<usize, Refusal> {
        self.write_with(list).written()
    }

    /// The same, answered in plain numbers.
    pub fn write_with(&self, list: &mut [u8]) -> Wrote {
        // SAFETY: commands led to the words, which are only read; the list is
        // lent for writing, and no part of them.
        unsafe { exported::cephlouk_plan_write(self.words.as_ptr(), list.as_mut_ptr(), list.len()) }
    }

    /// Finds a good activation order from the steps alone, whatever orders were
    /// given, and writes its step numbers to the front of a list: each step once,
    /// before its parent, and each subtree finished before its neighbour, children
    /// by falling (peak of the child's subtree less its out), equal ones by lower
    /// number. No order that finishes each subtree before its neighbour has a lower
    /// peak; orders that hop between subtrees may do better. The answer is how many
    /// entries were written, one for each step; later ones are not touched.
    ///
    /// 03 for its entries is taken where no 03 was given yet. An order that was
    /// given stays, after a refused BEGIN too, until the plan is opened anew.
    ///
    /// ```
    /// use cephlouk::{Command, Plan, Refusal};
    ///
    /// let mut plan = Plan::new();
    /// let mut order = [0; Plan::MAX_TASKS];
    /// assert_eq!(plan.find_order(&mut order), Err(Refusal::OutOfTurn));
    /// plan.apply(Command::Plan { steps: 3, stations: 1, places: 7 })?;
    /// plan.apply(Command::Step { parent: 3, work: 0, out: 3 })?;
    /// plan.apply(Command::Step { parent: 3, work: 6, out: 1 })?;
    /// plan.apply(Command::Step { parent: 0, work: 0, out: 1 })?;
    /// assert_eq!(plan.find_order(&mut order[..2]), Err(Refusal::ShortList));
    ///
    /// // Step 2 first: behind step 1 it would take 10 places.
    /// let count = plan.find_order(&mut order)?;
    /// assert_eq!(order[..count], [2, 1, 3]);
    /// for &step in &order[..count] {
    ///     plan.apply(Command::Activation(step))?;
    /// }
    /// assert_eq!(plan.apply(Command::Begin)?.peak, 7);
    ///
    /// for (parent, refusal) in [(1, Refusal::RootUnreached), (0, Refusal::NotOneRoot)] {
    ///     let mut plan = Plan::new();
    ///     plan.apply(Command::Plan { steps: 2, stations: 1, places: 0 })?;
    ///     // Step 1 feeds itself, or is a root; step 2 is a root.
    ///     plan.apply(Command::Step { parent, work: 0, out: 0 })?;
    ///     plan.apply(Command::Step { parent: 0, work: 0, out: 0 })?;
    ///     assert_eq!(plan.find_order(&mut order), Err(refusal));
    /// }
    /// # Ok::<(), Refusal>(())
    /// ```
    ///
    /// # Errors
    ///
    /// [`Refusal::OutOfTurn`] until all steps are given; then
    /// [`Refusal::NotOneRoot`] unless one step alone has parent 0; then
    /// [`Refusal::RootUnreached`] where some step's chain of parents never reaches
    /// it; then [`Refusal::ShortList`] where the list has fewer entries than there
    /// are steps. A refusal touches no entry.
    pub fn find_order(&self, list: &mut [u16]) -> Result<usize, Refusal> {
        self.find_order_with(list).written()
    }

    /// The same, answered in plain numbers.
    pub fn find_order_with(&self, list: &mut [u16]) -> Wrote {
        // SAFETY: commands led to the words, which are only read; the list is
        // lent for writing, and no part of them.
        unsafe {
            exported::cephlouk_plan_find_order(self.words.as_ptr(), list.as_mut_ptr(), list.len())
        }
    }

    /// All that it is: to be stored, and taken up again by
    /// [`Plan::from_words`].
    #[must_use]
    pub fn words(&self) -> &[u32; Plan::WORDS] {
        &self.words
    }

    /// A plan from the words of another.
    ///
    /// # Safety
    ///
    /// The words are those of a plan, as [`Plan::words`] gave them. They are
    /// not checked, and a command or a question on any others may do anything.
    ///
    /// # Panics
    ///
    /// Where the library that was linked is of another version.
    ///
    /// ```
    /// use cephlouk::Plan;
    ///
    /// let stored = Box::new(*Plan::new().words());
    /// let plan = unsafe { Plan::from_words(stored) };
    /// assert_eq!(plan.booked(), 0);
    /// ```
    #[must_use]
    pub unsafe fn from_words(words: Box<[u32; Plan::WORDS]>) -> Plan {
        exported::test_number();
        Plan {
            words,
            starts: [0; Plan::LEAST_STARTS],
        }
    }
}

/// One asking of words to which commands led.
#[inline]
fn ask(words: &mut [u32; Plan::WORDS], bytes: &[u8], place: usize, starts: &mut [u16]) -> Answer {
    // SAFETY: commands led to the words, since a plan gives them away for
    // reading only. Words and starts are lent for writing and the bytes for
    // reading, so that none is a part of another.
    unsafe {
        exported::cephlouk_plan_command(
            words.as_mut_ptr(),
            bytes.as_ptr(),
            bytes.len(),
            place,
            starts.as_mut_ptr(),
            starts.len(),
        )
    }
}

impl Clone for Plan {
    fn clone(&self) -> Plan {
        Plan {
            words: self.words.clone(),
            starts: self.starts,
        }
    }

    /// Copies the words to where the plan stands.
    fn clone_from(&mut self, other: &Plan) {
        self.words.clone_from(&other.words);
        self.starts = other.starts;
    }
}

impl Default for Plan {
    fn default() -> Plan {
        Plan::new()
    }
}

impl Debug for Plan {
    fn fmt(&self, to: &mut Formatter) -> fmt::Result {
        to.debug_struct("Plan")
            .field("phase", &self.phase())
            .field("booked", &self.booked())
            .field("in_use", &self.in_use())
            .field("standing", &self.standing())
            .finish_non_exhaustive()
    }
}
