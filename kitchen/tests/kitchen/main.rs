//! The command `cephlouk` and its text, tried.

mod browser;
mod fuzz;
mod keep;
mod menu;
mod names;
mod order;
mod picture;
mod places;
mod program;
mod questions;
mod refusals;
mod terminal;
mod text;
mod typed;
mod written;
