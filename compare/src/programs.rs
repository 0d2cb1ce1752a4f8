//! The day printer and the peer's program, timed on one long stream, and the command
//! for planners on the text of a day.

use crate::commanding::text_of;
use crate::day::Day;
use peer::generate::Shape;
use peer::Plan;
use std::fs::File;
use std::process::{Command, Stdio};

const PRINTER: &str = concat!(env!("CARGO_MANIFEST_DIR"), "/../target/bin/printer");
const PEER: &str = concat!(env!("CARGO_MANIFEST_DIR"), "/../peer/target/release/peer");
const KITCHEN: &str = concat!(
    env!("CARGO_MANIFEST_DIR"),
    "/../kitchen/target/release/cephlouk"
);

/// How many commands the stream has, at least.
pub const COMMANDS: usize = 200_000;
/// How often each program is run.
pub const RUNS: u32 = 201;

/// The user and the system time of a run in milliseconds, the mean of all.
pub type Times = [f64; 2];

/// The times of the day printer and of the peer's program; they take turns.
pub fn times() -> [Times; 2] {
    let path = std::env::temp_dir().join(format!("bench-{}.stream", std::process::id()));
    std::fs::write(&path, stream()).expect("a file of the stream");
    let mut times = [[0.0; 2]; 2];
    for _ in 0..RUNS {
        for (program, times) in [PRINTER, PEER].into_iter().zip(&mut times) {
            let input = File::open(&path).expect("the file of the stream");
            let [user, system] = run(Command::new(program).stdin(input));
            times[0] += user / f64::from(RUNS);
            times[1] += system / f64::from(RUNS);
        }
    }
    std::fs::remove_file(&path).expect("the file goes");
    times
}

/// The times of the command on the text of a day of the most tasks: run, and drawn as
/// a page.
pub fn times_of_command() -> [Times; 2] {
    let folder = std::env::temp_dir();
    let path = folder.join(format!("bench-{}.plan", std::process::id()));
    let page = path.with_extension("html");
    let day = Day::new(Shape::Random, Plan::TASKS, 4, 2);
    std::fs::write(&path, text_of(&day.bytes)).expect("a file of the text");
    let mut times = [[0.0; 2]; 2];
    for _ in 0..RUNS {
        let mut asked = [Command::new(KITCHEN), Command::new(KITCHEN)];
        asked[0].arg("run").arg(&path);
        asked[1].arg("picture").arg(&path).arg("-o").arg(&page);
        for (command, times) in asked.iter_mut().zip(&mut times) {
            let [user, system] = run(command);
            times[0] += user / f64::from(RUNS);
            times[1] += system / f64::from(RUNS);
        }
    }
    for file in [path, page] {
        std::fs::remove_file(file).expect("the file goes");
    }
    times
}

/// Whole days of the most tasks.
fn stream() -> Vec<u8> {
    let mut stream = Vec::new();
    let mut commands = 0;
    let shapes = [Shape::Random, Shape::Chain, Shape::Star, Shape::Binary];
    for shape in shapes.into_iter().cycle() {
        if commands >= COMMANDS {
            break;
        }
        stream.extend(Day::new(shape, Plan::TASKS, 4, 2).bytes);
        commands += 4 * Plan::TASKS + 3;
    }
    stream
}

/// Runs a program and drops what it prints.
fn run(command: &mut Command) -> Times {
    let before = of_children();
    let status = command.stdout(Stdio::null()).status();
    let status = status.unwrap_or_else(|error| panic!("{command:?}: {error}"));
    assert!(status.success(), "{command:?} ends well: {status}");
    let after = of_children();
    [after[0] - before[0], after[1] - before[1]]
}

/// `struct timeval` of the C library on 64-bit Linux.
#[repr(C)]
#[derive(Clone, Copy, Default)]
struct Timeval {
    seconds: i64,
    microseconds: i64,
}

/// `struct rusage`.
#[repr(C)]
#[derive(Default)]
struct Usage {
    user: Timeval,
    system: Timeval,
    others: [i64; 14],
}

/// Of all children that have ended.
const CHILDREN: i32 = -1;

extern "C" {
    fn getrusage(who: i32, usage: *mut Usage) -> i32;
}

/// The user and system time of all children so far, in milliseconds.
fn of_children() -> Times {
    let mut usage = Usage::default();
    // The usage is lent for writing.
    let failed = unsafe { getrusage(CHILDREN, &mut usage) };
    assert_eq!(failed, 0, "the times of the children");
    [usage.user, usage.system]
        .map(|time| 1e3 * time.seconds as f64 + 1e-3 * time.microseconds as f64)
}
