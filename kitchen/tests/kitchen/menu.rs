//! What the tests share: the program run, files of their own, and plan A.

use kitchen::sheet::Sheet;
use kitchen::text::{commands, stream, tidy, Broken};
use std::fs;
use std::io::Write;
use std::path::PathBuf;
use std::process::{Command, Stdio};

pub const PROGRAM: &str = env!("CARGO_BIN_EXE_cephlouk");

/// Plan A of document 01, with a fetch.
pub const PLAN_A: &str = "
    01 03 00 02 07 00 00 00
    02 03 00 05 00 01 00
    02 03 00 05 00 01 00
    02 00 00 00 00 01 00
    03 01 00 03 02 00 03 03 00
    04 01 00 04 02 00 04 03 00
    05 06 01 00 06 02 00 06 03 00 07";

pub fn example(name: &str) -> String {
    let path = format!("{}/../examples/{name}.plan", env!("CARGO_MANIFEST_DIR"));
    fs::read_to_string(path).unwrap()
}

/// What a program printed, what it told on standard error, and its status.
#[derive(Debug, PartialEq, Eq)]
pub struct Ended {
    pub output: Vec<u8>,
    pub errors: String,
    pub status: i32,
}

impl Ended {
    pub fn text(&self) -> &str {
        std::str::from_utf8(&self.output).unwrap()
    }
}

/// Runs the program on an input.
pub fn run(arguments: &[&str], input: &[u8]) -> Ended {
    let mut child = Command::new(PROGRAM)
        .args(arguments)
        .stdin(Stdio::piped())
        .stdout(Stdio::piped())
        .stderr(Stdio::piped())
        .spawn()
        .unwrap();
    let mut standard = child.stdin.take().unwrap();
    let input = input.to_vec();
    // Where the program stops early it does not take all of the input.
    let writer = std::thread::spawn(move || {
        let _ = standard.write_all(&input);
    });
    let output = child.wait_with_output().unwrap();
    writer.join().unwrap();
    Ended {
        output: output.stdout,
        errors: String::from_utf8(output.stderr).unwrap(),
        status: output.status.code().expect("no signal ends it"),
    }
}

/// All went well, with this output.
pub fn fine(output: impl AsRef<[u8]>) -> Ended {
    Ended {
        output: output.as_ref().to_vec(),
        errors: String::new(),
        status: 0,
    }
}

/// Nothing was printed, and this was told.
pub fn told(errors: impl Into<String>, status: i32) -> Ended {
    Ended {
        output: Vec::new(),
        errors: errors.into(),
        status,
    }
}

/// A file of the tests' own, in the folder that cargo keeps for them.
pub fn file(name: &str, bytes: &[u8]) -> String {
    let path = PathBuf::from(env!("CARGO_TARGET_TMPDIR")).join(name);
    fs::write(&path, bytes).unwrap();
    path.into_os_string().into_string().unwrap()
}

/// The bytes of a text, or the line and the words of its first fault.
pub fn to_bytes(text: &str) -> Result<Vec<u8>, (usize, String)> {
    match stream(text) {
        (bytes, None) => Ok(bytes),
        (_, Some(fault)) => Err((fault.place.line, fault.what)),
    }
}

/// The text of a stream's whole commands, and what is wrong behind them.
pub fn to_text(stream: &[u8]) -> (String, Option<Broken>) {
    let (commands, broken) = commands(stream);
    (tidy(&commands, &Sheet::default()), broken)
}

/// Bytes as the paper writes them.
pub fn hex(text: &str) -> Vec<u8> {
    let byte = |byte| u8::from_str_radix(byte, 16).unwrap();
    text.split_whitespace().map(byte).collect()
}

/// A fault's first line, without the lines below that show the place.
pub fn first_line(text: &str) -> &str {
    text.lines().next().unwrap_or("")
}
