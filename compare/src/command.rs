//! The command `cephlouk` beside the proved printer and the peer: `command
//! [STREAMS]`, 2,000 unless it says otherwise. The texts of examples/ are typed
//! line by line too.

use compare::commanding::{command, compare, printer, Tally};
use compare::feeding::{typed, Difference, COMMAND};
use peer::generate::{cut_stream, stream};
use std::process::ExitCode;

const TEXTS: [(&str, &str); 5] = [
    ("plan-a.plan", include_str!("../../examples/plan-a.plan")),
    ("lunch.plan", include_str!("../../examples/lunch.plan")),
    (
        "breakfast.plan",
        include_str!("../../examples/breakfast.plan"),
    ),
    (
        "cleaning.plan",
        include_str!("../../examples/cleaning.plan"),
    ),
    (
        "ward-lunch.plan",
        include_str!("../../examples/ward-lunch.plan"),
    ),
];

fn compare_all(count: u64) -> Result<Tally, String> {
    for (name, text) in TEXTS {
        if let Some(Difference { got, wanted }) = typed(&COMMAND, text) {
            let (got, wanted) = (
                String::from_utf8_lossy(&got),
                String::from_utf8_lossy(&wanted),
            );
            return Err(format!(
                "{name}, typed: printed\n{got}where the peer prints\n{wanted}"
            ));
        }
    }
    let mut tally = Tally::default();
    for seed in 1..=count {
        // Every second one is cut in the middle of a day, where steps wait.
        let bytes = if seed % 2 == 0 {
            stream(seed)
        } else {
            cut_stream(seed)
        };
        compare(&bytes, command, printer, &mut tally)
            .map_err(|what| format!("seed {seed}, {what}"))?;
    }
    Ok(tally)
}

fn main() -> ExitCode {
    let count: u64 = std::env::args()
        .nth(1)
        .map_or(2_000, |count| count.parse().expect("a number of streams"));
    match compare_all(count) {
        Err(what) => {
            println!("command: {what}");
            ExitCode::FAILURE
        }
        Ok(tally) => {
            println!(
                "command: the texts of {count} streams, the same {} lines; {} refused, {} with a number outside its limits; {} plans \
                 written, {} orders found and {} reasons told as by the peer; {} texts typed",
                tally.lines,
                tally.refused,
                tally.outside_limits,
                tally.written,
                tally.found,
                tally.reasons,
                TEXTS.len()
            );
            ExitCode::SUCCESS
        }
    }
}
