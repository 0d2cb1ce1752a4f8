//! A day printer's program fed with streams and plan texts, beside what the
//! peer prints.

use kitchen::text::stream;
use peer::listening::{listen, PATIENCE};
use std::fs::File;
use std::io::{ErrorKind, Write};
use std::process::{Child, ChildStdin, Command, Stdio};
use std::sync::mpsc::{Receiver, RecvTimeoutError};
use std::thread;
use std::time::Duration;

const PROVED: &str = concat!(env!("CARGO_MANIFEST_DIR"), "/../target/bin/printer");
const KITCHEN: &str = concat!(
    env!("CARGO_MANIFEST_DIR"),
    "/../kitchen/target/release/cephlouk"
);

/// After a piece, so that the next one comes by itself.
const PAUSE: Duration = Duration::from_micros(100);

/// A program that prints days: how it is called, and how long an answer of it
/// is waited for.
pub struct Program {
    pub command: fn() -> Command,
    pub patience: Duration,
}

/// The proved one.
pub const PRINTER: Program = Program {
    command: || Command::new(PROVED),
    patience: PATIENCE,
};

/// The command for planners, printing as the proved one does.
pub const COMMAND: Program = Program {
    command: || {
        let mut command = Command::new(KITCHEN);
        command.args(["run", "--plain"]);
        command
    },
    patience: PATIENCE,
};

/// What was printed, and what the peer prints.
pub struct Difference {
    pub got: Vec<u8>,
    pub wanted: Vec<u8>,
}

/// What the peer prints.
pub fn expected(bytes: &[u8]) -> Vec<u8> {
    let mut output = Vec::new();
    peer::printer::print(bytes, &mut output).expect("memory can be written");
    output
}

/// What is to be printed when these bytes have come and more may follow: all
/// but the line of a command that is cut.
fn expected_so_far(bytes: &[u8]) -> Vec<u8> {
    let mut output = expected(bytes);
    let end = output.len().saturating_sub(1);
    let last_line = output[..end]
        .iter()
        .rposition(|&byte| byte == b'\n')
        .map_or(0, |place| place + 1);
    if output[last_line..].starts_with(b"refused 1 at ") {
        output.truncate(last_line);
    }
    output
}

/// Feeds a stream in pieces, and waits after each for the lines that are due:
/// each line has to come as soon as its command is whole, and none before.
pub fn in_pieces(program: &Program, pieces: &[&[u8]]) -> Option<Difference> {
    let mut printer = Printer::start(program, Stdio::piped());
    let input = printer.child.stdin.take().expect("a pipe to write to");
    let pieces = pieces.iter().map(|&piece| (piece, piece.to_vec()));
    printer.answers(input, pieces)
}

/// Types a plan text line by line into a program that reads it, and waits after
/// each line for the answer.
pub fn typed(program: &Program, text: &str) -> Option<Difference> {
    let mut printer = Printer::start(program, Stdio::piped());
    let input = printer.child.stdin.take().expect("a pipe to write to");
    let (mut typed, mut known) = (String::new(), 0);
    let lines = text.split_inclusive('\n').map(|line| {
        typed += line;
        let bytes = stream(&typed).0.split_off(known);
        known += bytes.len();
        (line.as_bytes(), bytes)
    });
    printer.answers(input, lines)
}

/// Gives the printer a stream as a file, so that each read is as long as the
/// printer's room for it.
pub fn from_file(program: &Program, name: &str, stream: &[u8]) -> Option<Difference> {
    let path = std::env::temp_dir().join(format!("{name}-{}.stream", std::process::id()));
    std::fs::write(&path, stream).expect("a file of the stream");
    let input = File::open(&path).expect("the file of the stream");
    std::fs::remove_file(&path).expect("the file goes, its bytes stay");
    Printer::start(program, input.into()).end(expected(stream))
}

/// A printer that runs, and what it has printed so far.
struct Printer {
    child: Child,
    heard: Receiver<Vec<u8>>,
    patience: Duration,
    got: Vec<u8>,
}

impl Printer {
    fn start(program: &Program, input: Stdio) -> Printer {
        let mut child = start(&mut (program.command)(), input);
        let output = child.stdout.take().expect("a pipe to read from");
        Printer {
            child,
            heard: listen(output),
            patience: program.patience,
            got: Vec::new(),
        }
    }

    /// Feeds pieces, each given with what it adds to the stream, and waits for
    /// the lines that are due after each.
    fn answers<'a>(
        mut self,
        mut input: ChildStdin,
        pieces: impl Iterator<Item = (&'a [u8], Vec<u8>)>,
    ) -> Option<Difference> {
        let mut stream = Vec::new();
        for (piece, bytes) in pieces {
            feed(&mut input, piece);
            stream.extend(bytes);
            let due = expected_so_far(&stream);
            self.hear(due.len());
            if self.got != due {
                return self.stop(due);
            }
        }
        drop(input);
        self.end(expected(&stream))
    }

    /// Waits until so many bytes were printed or no more come, and then a
    /// little for any that are too many.
    fn hear(&mut self, bytes: usize) {
        while self.got.len() < bytes {
            match self.heard.recv_timeout(self.patience) {
                Ok(more) => self.got.extend(more),
                Err(_) => return,
            }
        }
        thread::sleep(PAUSE);
        self.got.extend(self.heard.try_iter().flatten());
    }

    /// Waits for the end of the output and of the program.
    fn end(mut self, wanted: Vec<u8>) -> Option<Difference> {
        loop {
            match self.heard.recv_timeout(self.patience) {
                Ok(more) => self.got.extend(more),
                Err(RecvTimeoutError::Disconnected) => break,
                Err(RecvTimeoutError::Timeout) => {
                    self.got.extend(b"(and does not end)\n");
                    return self.stop(wanted);
                }
            }
        }
        let status = self.child.wait().expect("the printer ends");
        assert!(status.success(), "the printer ends well: {status}");
        let got = self.got;
        (got != wanted).then_some(Difference { got, wanted })
    }

    /// Ends the program where it has printed something else.
    fn stop(mut self, wanted: Vec<u8>) -> Option<Difference> {
        self.child.kill().expect("the printer is ours to end");
        self.child.wait().expect("the printer ends");
        let got = self.got;
        Some(Difference { got, wanted })
    }
}

fn start(command: &mut Command, input: Stdio) -> Child {
    command
        .stdin(input)
        .stdout(Stdio::piped())
        .spawn()
        .unwrap_or_else(|error| panic!("{:?}: {error}", command.get_program()))
}

/// Writes bytes to the printer, which may have stopped after a refusal.
fn feed(input: &mut ChildStdin, bytes: &[u8]) {
    match input.write_all(bytes) {
        Err(error) if error.kind() != ErrorKind::BrokenPipe => {
            panic!("the printer's input: {error}")
        }
        _ => {}
    }
}

#[cfg(test)]
mod tests {
    use super::*;
    use crate::stand_in::stand_in;
    use crate::streams::{another_day, streams};
    use peer::generate::stream;

    /// A byte that is no command.
    const REFUSED: &[u8] = &[0xFF];

    /// Where an answer is waited for in vain.
    const LITTLE: Duration = Duration::from_secs(1);

    /// A stand-in that is waited for as the proved program is.
    fn patient(command: fn() -> Command) -> Program {
        Program { command, ..PRINTER }
    }

    /// A stand-in that is waited for a little.
    fn impatient(command: fn() -> Command) -> Program {
        Program {
            command,
            patience: LITTLE,
        }
    }

    #[test]
    fn the_peer_is_like_itself() {
        let peer = patient(|| stand_in("none"));
        for seed in 1..=20 {
            let bytes = stream(seed);
            assert!(in_pieces(&peer, &[&bytes]).is_none(), "seed {seed}");
        }
        for (name, bytes) in streams() {
            let pieces: Vec<&[u8]> = bytes.chunks(30_000).collect();
            assert!(in_pieces(&peer, &pieces).is_none(), "{name}, in pieces");
            assert!(from_file(&peer, "peer", &bytes).is_none(), "{name}");
        }
        let day = another_day();
        let pieces: Vec<&[u8]> = day.chunks(2).collect();
        assert!(in_pieces(&peer, &pieces).is_none(), "few bytes a piece");
        assert!(in_pieces(&peer, &[REFUSED, &day]).is_none(), "a refusal");
    }

    #[test]
    fn lines_on_standard_error_are_told() {
        let program = patient(|| stand_in("standard error"));
        let told = from_file(&program, "error", &another_day()).expect("a difference");
        assert_eq!(told.got, b"");
    }

    #[test]
    fn lines_after_a_refusal_are_told() {
        let program = patient(|| stand_in("goes on"));
        let told = in_pieces(&program, &[REFUSED, &another_day()]).expect("a difference");
        assert_eq!(told.wanted, b"refused 2 at 0\n");
        assert!(told.got.starts_with(b"refused 2 at 0\nbegin "));
    }

    #[test]
    fn late_lines_are_told() {
        let day = another_day();
        let program = patient(|| stand_in("late"));
        let told = from_file(&program, "late", &day);
        assert!(told.is_none(), "the lines are right, only late");
        let program = impatient(|| stand_in("late"));
        let pieces: Vec<&[u8]> = day.chunks(2).collect();
        let told = in_pieces(&program, &pieces).expect("a difference");
        assert_eq!(told.got, b"");
        assert!(told.wanted.starts_with(b"begin "));
    }

    #[test]
    fn a_program_that_does_not_end_is_told() {
        let program = impatient(|| stand_in("does not end"));
        let told = from_file(&program, "end", &another_day()).expect("a difference");
        assert!(told.got.ends_with(b"(and does not end)\n"));
    }

    #[test]
    fn a_short_line_is_told() {
        let (name, bytes) = &streams()[0];
        assert_eq!(*name, "64 starts at BEGIN");
        let program = patient(|| stand_in("short"));
        let told = from_file(&program, "short", bytes).expect("a difference");
        assert!(told.wanted.starts_with(&told.got[..304]));
        assert_eq!(told.got[304..], *b"\n");
    }

    #[test]
    fn a_wrong_offset_is_told() {
        let program = patient(|| stand_in("offset"));
        let told = in_pieces(&program, &[REFUSED]).expect("a difference");
        assert_eq!(told.got, b"refused 2 at 7\n");
        assert_eq!(told.wanted, b"refused 2 at 0\n");
    }
}
