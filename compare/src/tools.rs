//! The tools beside the peer's: `tools [CASES]`, 200,000 of each tool unless it
//! says otherwise. Both get the same operands and lists, and must answer the
//! same numbers and leave the same lists. A case of `why` has many answers, and
//! a case of fullness many pairs.

mod desk;
mod find;
mod named;
mod why;
mod write;
mod written;

use compare::commands::compare_commands;
use compare::lists::Desk;
use compare::orders::FindOrder;
use compare::pairs::compare_readings;
use compare::plans::Write;
use compare::reasons::Why;
use compare::tool::{compare, Tally};
use std::process::ExitCode;

/// Compares so many cases of a tool, and tells what was the same.
type Comparison = fn(u64) -> Result<String, String>;

/// Each tool.
const TOOLS: [(&str, Comparison); 6] = [
    ("commands", |cases| {
        compare_commands(named::read, cases)?;
        Ok(format!("{cases} lists of bytes, the same commands"))
    }),
    ("desk", |cases| {
        compare::<Desk>(desk::peak, cases).map(|tally| answers(cases, &tally))
    }),
    ("find_order", |cases| {
        compare::<FindOrder>(find::order, cases).map(|tally| answers(cases, &tally))
    }),
    ("fullness", |cases| {
        let pairs = PAIRS * cases;
        compare_readings(cephlouk::fullness, pairs)?;
        Ok(format!("{pairs} pairs, the same readings"))
    }),
    ("why", |cases| {
        compare::<Why>(why::reasons, cases).map(|tally| answers(cases, &tally))
    }),
    ("write", |cases| {
        compare::<Write>(write::plan, cases).map(|tally| answers(cases, &tally))
    }),
];

/// The pairs of a case of fullness.
const PAIRS: u64 = 64;

fn main() -> ExitCode {
    let cases: u64 = std::env::args()
        .nth(1)
        .map_or(200_000, |cases| cases.parse().expect("a number of cases"));
    for (name, compare) in TOOLS {
        match compare(cases) {
            Ok(same) => println!("{name}: {same}"),
            Err(difference) => {
                println!("{name}: a difference at {difference}");
                return ExitCode::FAILURE;
            }
        }
    }
    ExitCode::SUCCESS
}

/// How many cases were the same, and how many answers had which number.
fn answers(cases: u64, tally: &Tally) -> String {
    let counts = tally.iter().map(|(&number, count)| match number {
        0 => format!(", {count} accepted"),
        _ => format!(", {count} refused {number}"),
    });
    format!(
        "{cases} cases, the same answers{}",
        counts.collect::<String>()
    )
}
