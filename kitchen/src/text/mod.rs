//! Plan text: a plan and its day as a person writes them, and what they say.
//! One thing a line; `#` starts a comment. The text may say any commands whose
//! numbers are within the limits of document 01; whether they are in turn, and
//! all else that the rules ask, is the library's to answer.

mod back;
mod clock;
mod day_lines;
mod draft;
mod name;
mod nearest;
mod place;
mod plan_lines;
mod questions;
mod reader;
mod said;
mod stream;
mod tidy;
mod visible;
mod words;

pub use back::{commands, Broken};
pub use clock::Clock;
pub use nearest::nearest;
pub use place::{Fault, Place};
pub use reader::{Heard, Reader, LINES, QUESTIONS};
pub use said::{Given, Order, Question, Said};
pub use stream::stream;
pub use tidy::{one_line, order_lines, tidy};
pub use visible::{is_hidden, quoted, visible};
