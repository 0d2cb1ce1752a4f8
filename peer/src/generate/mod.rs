//! Seeded input: streams whole and cut, lists of askings that go on after
//! refusals, steps alone to find an order for, and pairs for fullness. The same
//! seed always gives the same input.

mod askings;
mod counts;
mod cut;
mod day;
mod draft;
mod flaw;
mod nuisance;
mod orders;
mod pairs;
mod places;
mod random;
mod siblings;
mod steps_only;
mod stream;
mod tree;

pub use crate::encode::encode;
pub use askings::{askings, many_askings, Asking};
pub use cut::cut_stream;
pub use orders::activation as activation_order;
pub use pairs::booked_and_bound;
pub use random::Random;
pub use steps_only::steps_only;
pub use stream::stream;
pub use tree::Shape;
