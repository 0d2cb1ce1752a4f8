//! The command function beside the peer's: `askings [ASKINGS [FIRST_SEED]]`,
//! 1,000,000 from seed 0 on unless it says otherwise. Both keep the same plans,
//! several at once, and get the same askings; they must give the same answers,
//! leave the same start lists and answer every question alike. Many askings must
//! come to every kind of day and of 08.

use compare::turns::{compare, OPEN};
use std::process::ExitCode;

fn main() -> ExitCode {
    let mut numbers = std::env::args()
        .skip(1)
        .map(|number| number.parse().expect("a number"));
    let askings = numbers.next().unwrap_or(1_000_000);
    let first_seed = numbers.next().unwrap_or(0);
    match compare(|_| cephlouk::Plan::new(), askings, first_seed) {
        Ok(tally) => {
            println!("match: {OPEN} plans open at once, the same answers to {tally}");
            if tally.lacks_a_kind() {
                println!("match: a kind came too seldom; take more askings, or another seed");
                return ExitCode::FAILURE;
            }
            ExitCode::SUCCESS
        }
        Err(difference) => {
            println!("match: a difference at {difference}");
            ExitCode::FAILURE
        }
    }
}
