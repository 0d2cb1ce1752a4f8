//! An independent writing of the rules in document 01: the plan, the booking
//! and the day; and of requests 01 to 08 in document 02: why a step isn't
//! starting, a plan written back out, a plan without an execution order, the
//! trolley that stands until it is fetched, fullness, whose readings stay the
//! same, a good activation order, found as in source document 002, the step that
//! sets the peak, and a bound that changes while a day runs. It shares nothing
//! with the tool it is compared with.
//!
//! Terms follow research report RR-8966: a step is a task, a station a
//! processor, the tray places the memory bound, and booked trays are booked
//! memory units.

mod activate;
mod answer;
mod available;
mod begin;
mod command;
mod desk;
mod dispatch;
mod done;
mod encode;
mod feed;
mod fetch;
mod figures;
mod find;
mod fullness;
pub mod generate;
pub mod listening;
mod order;
mod peak;
mod phase;
mod places;
mod plan;
mod postorder;
pub mod printer;
mod record;
mod refusal;
mod start;
pub mod text;
mod tree;
mod turn;
mod why;
mod write;

pub use answer::{Answer, DeskAnswer, Wrote};
pub use command::{decode, Command};
pub use desk::desk_peak;
pub use fullness::fullness;
pub use peak::needs;
pub use phase::Phase;
pub use plan::Plan;
pub use record::Record;
pub use refusal::Refusal;
pub use why::Reason;
