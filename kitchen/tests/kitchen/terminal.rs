//! The program on a terminal, which the command `script` stands for. Where it is not
//! installed the test says that it did not run.

use crate::menu::{example, file, PROGRAM};
use std::io::Write;
use std::process::{Command, Stdio};

/// What a terminal shows of a command that gets these lines typed, and its status;
/// none where there is no terminal to be had.
fn shown(command: &str, lines: &str, variables: &[(&str, &str)]) -> Option<(String, i32)> {
    let mut child = Command::new("script")
        .args([
            "--quiet",
            "--return",
            "--echo",
            "never",
            "--command",
            command,
            "/dev/null",
        ])
        .env("TERM", "xterm")
        .env_remove("NO_COLOR")
        .envs(variables.iter().copied())
        .stdin(Stdio::piped())
        .stdout(Stdio::piped())
        .stderr(Stdio::null())
        .spawn()
        .ok()?;
    let mut input = child.stdin.take().unwrap();
    // The end of what is typed is a letter of its own.
    let _ = input.write_all(format!("{lines}\u{4}").as_bytes());
    drop(input);
    let output = child.wait_with_output().unwrap();
    let shown = String::from_utf8(output.stdout).unwrap().replace('\r', "");
    Some((shown, output.status.code().unwrap()))
}

/// Says so where nothing was tried.
fn is_there() -> bool {
    let is_there = Command::new("script").arg("--version").output().is_ok();
    if !is_there {
        eprintln!("NOT RUN: 'script' is not installed, and no terminal was tried");
    }
    is_there
}

#[test]
fn a_typed_day_goes_on_behind_faults() {
    if !is_there() {
        return;
    }
    let text = example("plan-a").replace("done 1\n", "doen 1\ndone 2\nstanding\ndone 1\n");
    let (shown, status) = shown(&format!("{PROGRAM} run"), &text, &[]).unwrap();
    assert!(
        shown.starts_with("a plan and its day, line by line"),
        "{shown}"
    );
    for told in [
        "'doen' is no command",
        "done 2 refused (6): step 2: not booked",
        "0 of 3 steps have ended;",
        "the day is over",
    ] {
        assert!(shown.contains(told), "{shown}");
    }
    assert!(
        shown.contains("\u{1b}[1;31m") && shown.contains("\u{1b}[1mstart 1\u{1b}[0m"),
        "{shown}"
    );
    assert_eq!(status, 0, "the day came to its end");
    let (shown, status) =
        self::shown(&format!("{PROGRAM} run"), "begin\n", &[("NO_COLOR", "1")]).unwrap();
    assert!(!shown.contains('\u{1b}'), "{shown}");
    assert_eq!(status, 1, "there is no day");
}

#[test]
fn bytes_go_to_no_terminal() {
    if !is_there() {
        return;
    }
    let name = file("terminal.plan", example("plan-a").as_bytes());
    let (text, status) = shown(&format!("{PROGRAM} write --bytes {name}"), "", &[]).unwrap();
    assert!(text.contains("bytes do not go to a terminal"), "{text}");
    assert_eq!(status, 2);
    let (text, status) = shown(&format!("{PROGRAM} write --bytes -o - {name}"), "", &[]).unwrap();
    assert!(text.starts_with('\u{1}'), "{text:?}");
    assert_eq!(status, 0);
    let (text, _) = shown(&format!("{PROGRAM} picture {name}"), "", &[]).unwrap();
    assert!(text.contains("A day") && text.contains("48;5;"), "{text}");
}
