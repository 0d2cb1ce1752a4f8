//! The peer's printer as a program that stands in for the proved one, with a
//! fault or none. It is the program of the tests, called for one of them.

use peer::listening::PATIENCE;
use peer::printer::print;
use std::env;
use std::fs::File;
use std::io::{stderr, stdin, BufWriter, Read, Result, Write};
use std::process::{Command, Stdio};
use std::thread::sleep;

/// The variable that names the fault.
const FAULT: &str = "STAND_IN_FAULT";

/// Drops what is told of the test, and leaves its standard output to the
/// stand-in.
const CALL: &str = r#"exec "$0" --exact stand_in::runs 3>&1 >/dev/null"#;
const OUTPUT: &str = "/dev/fd/3";

pub fn stand_in(fault: &str) -> Command {
    let tests = env::current_exe().expect("the program of the tests");
    let mut command = Command::new("sh");
    command.args(["-c", CALL]).arg(tests).env(FAULT, fault);
    command.stderr(Stdio::null());
    command
}

/// The stand-in. Among other tests no fault is named, and it does nothing.
#[test]
fn runs() -> Result<()> {
    let Ok(fault) = env::var(FAULT) else {
        return Ok(());
    };
    let mut input = stdin().lock();
    let mut output = BufWriter::new(File::options().write(true).open(OUTPUT)?);
    match fault.as_str() {
        "none" => print(input, output),
        "standard error" => print(input, stderr()),
        "goes on" => {
            print(&mut input, &mut output)?;
            print(input, output)
        }
        "late" => output.write_all(&all_lines(input)?),
        "does not end" => {
            print(input, output)?;
            sleep(PATIENCE);
            Ok(())
        }
        "short" => {
            output.write_all(&all_lines(input)?[..304])?;
            output.write_all(b"\n")
        }
        "offset" => {
            let lines = String::from_utf8(all_lines(input)?).expect("lines of text");
            let (refusal, offset) = lines.trim_end().rsplit_once(' ').expect("a refusal");
            let offset: u64 = offset.parse().expect("a number");
            writeln!(output, "{refusal} {}", offset + 7)
        }
        _ => panic!("no fault is named {fault}"),
    }
}

/// All that the peer prints, when it has ended.
fn all_lines(input: impl Read) -> Result<Vec<u8>> {
    let mut lines = Vec::new();
    print(input, &mut lines)?;
    Ok(lines)
}
