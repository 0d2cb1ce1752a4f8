//! Cephlouk tells the cooks of a clinic kitchen which step to start each time
//! a step ends, so that the cold room never overfills and the day never
//! sticks. This is the safe side of the proved library: a [`Plan`] is kept,
//! takes one command after another, can be asked how the day stands, can be
//! written back out, and finds a good activation order for its steps. A panel
//! that has no plan asks [`fullness`] of two numbers.
//!
//! A plan is given a [`Command`] by its name. What is stored and sent is its
//! bytes, one and operands of fixed width, lowest byte first:
//!
//! | byte | operands | meaning |
//! |---|---|---|
//! | 01 | n (2 bytes), p (1), M (4) | PLAN: drop the old plan, open one of n steps, p stations and M tray places |
//! | 02 | parent (2), work (2), out (2) | STEP: the next step; parent 0 is the last step |
//! | 03 | step (2) | next in the activation order |
//! | 04 | step (2) | next in the execution order: n of them, or none at all |
//! | 05 | none | BEGIN: the day begins; where no 04 was given, the activation order is used for both |
//! | 06 | step (2) | DONE: this step has ended |
//! | 07 | none | FETCH: the trolley is fetched, and the out of the last step is free |
//! | 08 | M (4) | while the day runs: from now on the cold room has M tray places |
//!
//! Two salads go into one bowl, and the cold room has 7 places:
//!
//! ```
//! use cephlouk::{Command, Phase, Plan, Reason, Refusal};
//!
//! let mut plan = Plan::new();
//! plan.apply(Command::Plan { steps: 3, stations: 2, places: 7 })?;
//! plan.apply(Command::Step { parent: 3, work: 5, out: 1 })?;
//! plan.apply(Command::Step { parent: 3, work: 5, out: 1 })?;
//! plan.apply(Command::Step { parent: 0, work: 0, out: 1 })?;
//! for step in 1..=3 {
//!     plan.apply(Command::Activation(step))?;
//!     plan.apply(Command::Execution(step))?;
//! }
//!
//! let begun = plan.apply(Command::Begin)?;
//! assert_eq!((begun.peak, begun.by), (7, 2)); // 7 places, while step 2 runs
//! assert_eq!(begun.starts, [1]);
//! assert_eq!(plan.booked(), 6);
//! assert_eq!(plan.fullness(), 857); // thousandths of the 7 places
//!
//! // Step 2 has to wait: it lacks 5 places. What is refused changes nothing.
//! assert_eq!(plan.why(2), Ok(Reason::NotBooked { first: 2, lack: 5 }));
//! assert_eq!(plan.apply(Command::Done(2)), Err(Refusal::NotRunning));
//!
//! // With a shelf more it starts at once. The shelf cannot go while it is booked,
//! // nor may there ever be fewer places than the peak.
//! assert_eq!(plan.apply(Command::Places(12))?.starts, [2]);
//! assert_eq!(plan.apply(Command::Places(11)), Err(Refusal::BoundBelowBooked));
//! assert_eq!(plan.apply(Command::Places(6)), Err(Refusal::PeakAboveBound));
//!
//! assert_eq!(plan.apply(Command::Done(1))?.starts, []);
//! assert_eq!(plan.apply(Command::Places(7))?.starts, []); // the shelf is out again
//! assert_eq!(plan.fullness(), 1000);
//! assert_eq!(plan.apply(Command::Done(2))?.starts, [3]);
//! assert_eq!(plan.apply(Command::Done(3))?.starts, []);
//!
//! // The bowl keeps its tray until it is fetched.
//! assert_eq!(plan.phase(), Phase::Ready);
//! assert_eq!(plan.booked(), 1);
//! plan.apply(Command::Fetch)?;
//! assert_eq!(plan.phase(), Phase::Over);
//! assert_eq!(plan.booked(), 0);
//! # Ok::<(), Refusal>(())
//! ```

mod answer;
mod command;
mod desk;
mod exported;
mod fullness;
mod phase;
mod plan;
mod reason;
mod refusal;

pub use answer::{Accepted, Answer, Wrote};
pub use command::{Command, Encoded};
pub use desk::{desk_peak, desk_peak_in, DeskPeak, TaskRecord};
pub use fullness::fullness;
pub use phase::{Phase, Standing};
pub use plan::Plan;
pub use reason::Reason;
pub use refusal::Refusal;

/// The Rust in docs/EMBEDDING.md, tried as the examples here are.
#[cfg(doctest)]
#[doc = include_str!("../../docs/EMBEDDING.md")]
struct Embedding;
