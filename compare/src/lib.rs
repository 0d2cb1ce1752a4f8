//! What the comparisons share: inputs, both sides of each, and how a
//! difference is told.

pub mod activation;
pub mod answered;
pub mod bounds;
pub mod clock;
pub mod commanding;
pub mod commands;
pub mod day;
pub mod feeding;
pub mod fence;
pub mod kept;
pub mod kinds;
pub mod lists;
#[cfg(test)]
mod order_kinds;
pub mod orders;
pub mod pairs;
pub mod peaks;
pub mod plans;
pub mod programs;
pub mod readings;
pub mod reasons;
pub mod records;
#[cfg(test)]
mod stand_in;
pub mod streams;
pub mod synthetic;
pub mod table;
pub mod tally;
pub mod tool;
#[cfg(test)]
mod tool_kinds;
pub mod trees;
pub mod turns;
