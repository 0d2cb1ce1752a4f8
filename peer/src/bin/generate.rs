//! Writes the stream of one seed: `generate SEED`.

use std::io::{self, Write};
use std::process::ExitCode;

fn main() -> ExitCode {
    let mut arguments = std::env::args().skip(1);
    let seed = arguments.next().and_then(|seed| seed.parse().ok());
    let (Some(seed), None) = (seed, arguments.next()) else {
        eprintln!("usage: generate SEED");
        return ExitCode::from(2);
    };
    match io::stdout().write_all(&peer::generate::stream(seed)) {
        Ok(()) => ExitCode::SUCCESS,
        Err(error) => {
            eprintln!("generate: {error}");
            ExitCode::FAILURE
        }
    }
}
