//! A day of two salads that go into one bowl: commands by their names.
//!
//!     cargo run --example salads

use cephlouk::{Command, Plan};

fn main() {
    let step = |parent, work, out| ("step".to_string(), Command::Step { parent, work, out });
    let activation = |step| ("activation".to_string(), Command::Activation(step));
    let done = |step| (format!("done {step}"), Command::Done(step));
    let plan = Command::Plan {
        steps: 3,
        stations: 2,
        places: 7,
    };
    let day = [
        ("plan".to_string(), plan),
        step(3, 5, 1),
        step(3, 5, 1),
        step(0, 0, 1),
        activation(1),
        activation(2),
        activation(3),
        ("begin".to_string(), Command::Begin),
        done(2),
        done(1),
        done(2),
        done(3),
        ("fetch".to_string(), Command::Fetch),
    ];
    let mut plan = Plan::new();
    for (name, command) in day {
        print!("{name}:");
        match plan.apply(command) {
            Ok(accepted) => accepted
                .starts
                .iter()
                .for_each(|step| print!(" start {step}")),
            Err(refusal) => print!(" refused {}", refusal.number()),
        }
        println!();
    }
}
