//! The kinds of 08, and of reports under a bound that it changed. Each of them
//! must come.

use crate::answered::Answered;
use crate::kinds::{Kind, OfKinds};
use crate::lists::of_plan;
use crate::peaks::sums;
use cephlouk::{Phase, Refusal};
use peer::{Command, Plan, Reason};

/// The bounds of a plan, and the peak that they are held to.
#[derive(Clone, Copy, Default)]
pub struct Bounds {
    /// M, the bound in force.
    in_force: u32,
    /// The one that BEGIN found.
    at_begin: u32,
    /// As BEGIN answered it.
    peak: u64,
}

impl Bounds {
    /// Follows the plan through an asking.
    pub fn follow(&mut self, answered: &Answered) {
        if !answered.is_accepted() {
            return;
        }
        match answered.command {
            Some(Command::Plan { memory_bound, .. }) => self.in_force = memory_bound,
            Some(Command::Begin) => {
                self.at_begin = self.in_force;
                self.peak = answered.answer.peak;
            }
            Some(Command::Places(bound)) => self.in_force = bound,
            _ => {}
        }
    }
}

/// An asking, and the bounds ahead of it.
pub struct Case {
    answered: Answered,
    bounds: Bounds,
    /// Whether it is an 08 that is refused for the peak, although no task that is
    /// left needs as much.
    is_enough_for_rest: bool,
}

impl OfKinds for Case {
    const KINDS: &'static [Kind<Case>] = &[
        ("refused 9 below the peak alone", |case| {
            case.is_refused(Refusal::PeakAboveBound, |bound| bound >= case.booked())
        }),
        ("refused 9 below the trays booked too", |case| {
            case.is_refused(Refusal::PeakAboveBound, |bound| bound < case.booked())
        }),
        ("refused 9 where no step left needs more", |case| {
            case.is_enough_for_rest
        }),
        ("refused 13 one below the trays booked", |case| {
            case.is_refused(Refusal::BoundBelowBooked, |bound| {
                bound + 1 == case.booked()
            })
        }),
        ("taken at the peak", |case| {
            case.is_taken(|bound| u64::from(bound) == case.bounds.peak)
        }),
        ("taken at the trays booked", |case| {
            case.is_taken(|bound| bound == case.booked())
        }),
        ("the same again", |case| {
            case.is_taken(|bound| bound == case.bounds.in_force)
        }),
        ("smaller", |case| {
            case.is_taken(|bound| bound < case.bounds.in_force)
        }),
        ("larger with a start", |case| {
            case.is_larger() && case.starts() > 0
        }),
        ("larger without a start", |case| {
            case.is_larger() && case.starts() == 0
        }),
        ("larger with a step booked and no start", |case| {
            case.is_larger() && case.starts() == 0 && case.books()
        }),
        ("as large as can be", |case| {
            case.is_taken(|bound| bound == u32::MAX)
        }),
        ("refused 3 in empty", |case| {
            case.is_refused_in(Refusal::OutOfTurn, Phase::Empty)
        }),
        ("refused 3 in steps", |case| {
            case.is_refused_in(Refusal::OutOfTurn, Phase::Steps)
        }),
        ("refused 3 in orders", |case| {
            case.is_refused_in(Refusal::OutOfTurn, Phase::Orders)
        }),
        ("refused 3 in ready", |case| {
            case.is_refused_in(Refusal::OutOfTurn, Phase::Ready)
        }),
        ("refused 3 in over", |case| {
            case.is_refused_in(Refusal::OutOfTurn, Phase::Over)
        }),
        ("refused 10 in running with a list one short", |case| {
            case.is_refused_in(Refusal::FewStarts, Phase::Running) && case.answered.is_one_short()
        }),
        ("DONEs under a smaller bound than at BEGIN", |case| {
            case.is_report() && case.bounds.in_force < case.bounds.at_begin
        }),
        ("DONEs under a larger one", |case| {
            case.is_report() && case.bounds.in_force > case.bounds.at_begin
        }),
    ];

    const LEAST: u64 = 5;
}

impl Case {
    /// Of a plan as the asking leaves it.
    pub fn new(answered: Answered, bounds: Bounds, plan: &Plan) -> Case {
        let mut case = Case {
            answered,
            bounds,
            is_enough_for_rest: false,
        };
        case.is_enough_for_rest = case.is_refused(Refusal::PeakAboveBound, |bound| {
            is_enough_for_rest(bound, plan)
        });
        case
    }

    /// The bound that it asks for, where it is an 08.
    fn bound(&self) -> Option<u32> {
        match self.answered.command {
            Some(Command::Places(bound)) => Some(bound),
            _ => None,
        }
    }

    /// Whether it is an 08 that is taken, with such a bound.
    fn is_taken(&self, is_such: impl Fn(u32) -> bool) -> bool {
        self.bound().is_some_and(is_such) && self.answered.is_accepted()
    }

    /// Whether it is an 08 that is refused so, with such a bound.
    fn is_refused(&self, refusal: Refusal, is_such: impl Fn(u32) -> bool) -> bool {
        let is_so = || self.answered.answer.refusal() == Some(refusal);
        self.bound().is_some_and(|bound| is_so() && is_such(bound))
    }

    fn is_refused_in(&self, refusal: Refusal, phase: Phase) -> bool {
        self.is_refused(refusal, |_| true) && self.answered.before.phase == phase
    }

    fn is_larger(&self) -> bool {
        self.is_taken(|bound| bound > self.bounds.in_force)
    }

    /// Whether it is a DONE that is taken.
    fn is_report(&self) -> bool {
        self.answered.is_accepted() && matches!(self.answered.command, Some(Command::Done(_)))
    }

    /// B ahead of it.
    fn booked(&self) -> u32 {
        self.answered.before.booked
    }

    /// How many tasks it starts.
    fn starts(&self) -> usize {
        self.answered.answer.starts
    }

    /// Whether more tasks are booked and have not started than ahead of it.
    fn books(&self) -> bool {
        let [before, after] = [self.answered.before, self.answered.after].map(|at| at.standing);
        after.activated > before.activated
    }
}

/// Whether a bound is at least what the cold room would hold while each task that
/// has not ended runs by itself, in the activation order.
fn is_enough_for_rest(bound: u32, plan: &Plan) -> bool {
    let given = of_plan(plan);
    let mut tasks = given.activation.iter().zip(sums(&given));
    tasks.all(|(&task, sum)| sum <= bound.into() || plan.why(task) == Reason::Ended)
}
