//! The command `cephlouk`: a day run, explained and drawn, over the proved
//! library and nothing else. What the library answers decides; here are the
//! words, names and pictures around it.

pub mod answers;
pub mod arguments;
pub mod commands;
pub mod console;
pub mod day;
pub mod explain;
pub mod input;
pub mod journal;
pub mod json;
pub mod lines;
pub mod load;
pub mod message;
pub mod output;
pub mod paint;
pub mod picture;
pub mod rewrite;
pub mod script;
pub mod sheet;
pub mod simulate;
pub mod tell;
pub mod text;
