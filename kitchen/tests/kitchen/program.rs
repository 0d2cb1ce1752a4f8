//! The program: inputs, outputs, messages, usage and statuses.

use crate::menu::{example, file, fine, first_line, run, told, PROGRAM};
use std::fs::OpenOptions;
use std::process::{Command, Stdio};

#[test]
fn from_a_file_or_standard_input() {
    let text = example("plan-a");
    let name = file("program.plan", text.as_bytes());
    let lines = "\
begin: start 1 · 6 in use, 6 booked of 7 · peak 7 at 2 · 2 is next and lacks 5 places
done 1: start 2 · 7 in use, 7 booked of 7
done 2: start 3 · 3 in use, 3 booked of 7
done 3: the trolley stands until 'fetch' · 1 in use, 1 booked of 7
fetch: the trolley is gone, and the day is over
";
    for arguments in [
        &["run", &name][..],
        &["run"],
        &["run", "-"],
        &["run", "--", &name],
    ] {
        assert_eq!(run(arguments, text.as_bytes()), fine(lines));
    }
}

#[test]
fn the_lines_as_json() {
    let ended = run(&["--json", "run"], example("plan-a").as_bytes());
    let first = "{\"command\":\"begin\",\"peak\":7,\"by\":2,\"starts\":[1],\"booked\":6,\"used\":6,\"full\":857,\
        \"places\":7,\"next\":{\"step\":2,\"lacks\":5}}";
    assert_eq!(first_line(ended.text()), first);
    assert_eq!(ended.text().lines().count(), 5);
}

#[test]
fn a_message_shows_its_place() {
    let wide = "é".repeat(300);
    for (text, wanted) in [
        (
            "  begin now\n".to_string(),
            "standard input:1:9: 'begin' wants nothing more, found 'now'\n1 |   begin now\n  |         ^^^\n".to_string(),
        ),
        (
            "\n\n\tdone\t\n".to_string(),
            "standard input:3:6: 'done' wants a step: a number from 1 to 1024 or a name, found nothing\n3 |  done\n  |      ^\n".to_string(),
        ),
        (
            format!("{wide} x\n"),
            format!(
                "standard input:1:1: '{}'... is no command\n1 | {}... x\n  | {}\n",
                "é".repeat(40),
                "é".repeat(60),
                "^".repeat(63)
            ),
        ),
    ] {
        assert_eq!(run(&["run"], text.as_bytes()), told(wanted, 2), "{text}");
    }
}

#[test]
fn messages_stay_short() {
    for text in [
        vec![b'x'; 900_000],
        vec![0x1b; 900_000],
        vec![0xff; 900_000],
    ] {
        let ended = run(&["run"], &text);
        assert_eq!((ended.output, ended.status), (vec![], 2));
        assert!(ended.errors.len() < 2_000 && ended.errors.lines().count() == 3);
        assert!(
            !ended.errors.contains('\u{1b}'),
            "nothing that a terminal obeys"
        );
    }
}

#[test]
fn a_line_that_does_not_end() {
    let mut text = b"# Monday\n".to_vec();
    text.resize(2_000_000, b' ');
    let wanted = "standard input: line 2 does not end\n";
    assert_eq!(run(&["run"], &text), told(wanted, 2));
}

#[test]
fn a_byte_order_mark_and_ends_of_lines_of_two_bytes() {
    let text = format!("\u{feff}{}", example("plan-a").replace('\n', "\r\n"));
    let plain = run(&["run", "--plain"], example("plan-a").as_bytes());
    assert_eq!(run(&["run", "--plain"], text.as_bytes()), plain);
    assert_eq!(run(&["run", "--plain"], text.trim_end().as_bytes()), plain);
}

#[test]
fn any_letters_in_comments() {
    let mut text = b"# pur\xe9e\n".to_vec();
    text.extend(example("plan-a").bytes());
    assert_eq!(run(&["run"], &text).status, 0);
}

#[test]
fn inputs_that_cannot_be_read() {
    let folder = env!("CARGO_TARGET_TMPDIR");
    for subcommand in ["run", "check", "why", "order", "peak", "write", "read"] {
        let ended = run(&[subcommand, "no-such.plan"], b"");
        assert_eq!(ended, told("no-such.plan: there is no such file\n", 3));
        let ended = run(&[subcommand, folder], b"");
        assert_eq!(
            ended,
            told(format!("{folder}: it is a directory, and no file\n"), 3)
        );
    }
}

#[test]
fn a_full_disk() {
    let full = || OpenOptions::new().write(true).open("/dev/full").unwrap();
    for arguments in [&["run"][..], &["write"], &["help"]] {
        let name = file("full.plan", example("plan-a").as_bytes());
        let mut arguments = arguments.to_vec();
        if arguments != ["help"] {
            arguments.push(&name);
        }
        let output = Command::new(PROGRAM)
            .args(&arguments)
            .stdout(Stdio::from(full()))
            .output()
            .unwrap();
        let errors = String::from_utf8(output.stderr).unwrap();
        assert_eq!(
            errors, "standard output: the disk is full\n",
            "{arguments:?}"
        );
        assert_eq!(output.status.code(), Some(3));
    }
    let ended = run(&["write", "-o", "/dev/full"], example("plan-a").as_bytes());
    assert_eq!(ended, told("/dev/full: the disk is full\n", 3));
}

#[test]
fn wrong_usage() {
    for (arguments, what) in [
        (&[][..], "a subcommand is missing"),
        (&["rum"], "there is no subcommand 'rum'"),
        (&["--plain"], "there is no option '--plain'"),
        (&["run", "--plian"], "there is no option '--plian'"),
        (&["run", "-x"], "there is no option '-x'"),
        (&["run", "a", "b"], "'b' is one word too many"),
        (&["run", "--plain=yes"], "'--plain' takes no value"),
        (&["write", "-o"], "'-o' wants FILE behind it"),
        (&["check"], "'check' wants a file"),
        (&["why"], "'why' wants a file"),
        (&["why", "a", "1", "2"], "'2' is one word too many"),
        (&["help", "rum"], "there is no subcommand 'rum'"),
        (
            &["completions"],
            "'completions' wants a shell: bash, zsh or fish",
        ),
        (
            &["completions", "csh"],
            "there are no completions for 'csh'",
        ),
    ] {
        let ended = run(arguments, b"");
        assert_eq!(first_line(&ended.errors), format!("cephlouk: {what}"));
        assert_eq!((ended.output, ended.status), (vec![], 2), "{arguments:?}");
    }
    let help = run(&["rum"], b"").errors;
    assert!(
        help.ends_with("help: is 'run' meant? 'cephlouk help' lists all\n"),
        "{help}"
    );
    let help = run(&["run", "--plian"], b"").errors;
    assert!(help.ends_with("help: is '--plain' meant?\n"), "{help}");
}

#[test]
fn help_and_version() {
    let version = concat!("cephlouk ", env!("CARGO_PKG_VERSION"), "\n");
    assert_eq!(run(&["--version"], b""), fine(version));
    let help = run(&["help"], b"");
    assert_eq!(run(&["--help"], b""), help);
    for line in kitchen::text::LINES.iter().chain(&kitchen::text::QUESTIONS) {
        assert!(help.text().contains(&format!("\n    {line}\n")), "{line}");
    }
    for subcommand in kitchen::commands::SUBCOMMANDS {
        let name = subcommand.name;
        assert!(help.text().contains(&format!("\n  {name} ")), "{name}");
        let one = run(&["help", name], b"");
        assert!(
            one.text().starts_with(&format!("usage: cephlouk {name} ")),
            "{name}"
        );
        assert_eq!(run(&[name, "--help"], b""), one);
        for switch in subcommand.switches {
            assert!(one.text().contains(switch.word), "{name} {}", switch.word);
            assert!(
                subcommand.usage.contains(switch.word),
                "{name} {}",
                switch.word
            );
        }
    }
}

#[test]
fn completions_are_scripts_of_their_shells() {
    for shell in ["bash", "zsh", "fish"] {
        let script = run(&["completions", shell], b"");
        assert_eq!((&*script.errors, script.status), ("", 0));
        for subcommand in kitchen::commands::SUBCOMMANDS {
            assert!(script.text().contains(subcommand.name), "{shell}");
        }
        let name = file(&format!("completions.{shell}"), &script.output);
        // A shell that is not installed cannot be asked.
        if let Ok(status) = Command::new(shell).args(["-n", &name]).status() {
            assert!(status.success(), "{shell}");
        }
    }
    // Bash completes by it.
    let script = run(&["completions", "bash"], b"");
    let asked = format!(
        "{}COMP_WORDS=(cephlouk run --pl); COMP_CWORD=2; _cephlouk; echo \"${{COMPREPLY[@]}}\"",
        script.text()
    );
    let completed = Command::new("bash").args(["-c", &asked]).output().unwrap();
    assert_eq!(completed.stdout, b"--plain\n");
}

#[test]
fn no_colours_where_nobody_looks() {
    let text = example("platter");
    for variables in [&[][..], &[("NO_COLOR", "1")], &[("TERM", "xterm")]] {
        let name = file("colour.plan", text.as_bytes());
        let output = Command::new(PROGRAM)
            .args(["run", &name])
            .envs(variables.iter().copied())
            .output()
            .unwrap();
        assert!(!output.stderr.contains(&0x1b) && !output.stdout.contains(&0x1b));
    }
}
