//! A day that is typed line by line: what a line says is answered before the
//! next line is typed.

use crate::menu::{example, run, PROGRAM};
use peer::listening::{listen, PATIENCE};
use std::io::Write;
use std::process::{Child, ChildStdin, Command, Stdio};
use std::sync::mpsc::Receiver;

/// Where lines are typed, and where what comes of them is heard.
struct Typed {
    child: Child,
    input: ChildStdin,
    heard: Receiver<Vec<u8>>,
    got: Vec<u8>,
}

impl Typed {
    fn into(arguments: &[&str]) -> Typed {
        let mut child = Command::new(PROGRAM)
            .args(arguments)
            .stdin(Stdio::piped())
            .stdout(Stdio::piped())
            .stderr(Stdio::null())
            .spawn()
            .unwrap();
        let output = child.stdout.take().unwrap();
        let input = child.stdin.take().unwrap();
        Typed {
            child,
            input,
            heard: listen(output),
            got: Vec::new(),
        }
    }

    /// Types a line, and waits until all that is due by then has come.
    fn line(&mut self, line: &str, due: &[u8]) {
        writeln!(self.input, "{line}").unwrap();
        while self.got.len() < due.len() {
            let more = self.heard.recv_timeout(PATIENCE);
            self.got
                .extend(more.unwrap_or_else(|_| panic!("no answer to '{line}'")));
        }
        assert_eq!(self.got, due, "{line}");
    }

    /// Nothing more is typed: answers how it ended.
    fn end(mut self) -> i32 {
        drop(self.input);
        assert_eq!(self.heard.iter().flatten().count(), 0, "all was heard");
        self.child.wait().unwrap().code().unwrap()
    }
}

#[test]
fn each_line_is_answered_before_the_next() {
    for (name, arguments) in [
        ("plan-a", &["run", "--plain"][..]),
        ("breakfast", &["run", "--plain"]),
        ("lunch", &["run"]),
        ("cleaning", &["run", "--json"]),
    ] {
        let text = example(name);
        let mut typed = Typed::into(arguments);
        let mut so_far = String::new();
        for line in text.lines() {
            so_far = so_far + line + "\n";
            typed.line(line, &answers(arguments, &so_far));
        }
        assert_eq!(typed.end(), 0, "{name}");
    }
}

/// What a day answers, without what is told where it ends too early.
fn answers(arguments: &[&str], text: &str) -> Vec<u8> {
    let ended = run(arguments, text.as_bytes());
    let lines = ended.text().split_inclusive('\n');
    let answers = lines.filter(|line| !line.contains("\"message\""));
    answers.collect::<String>().into_bytes()
}

#[test]
fn a_pipe_stops_at_a_wrong_line() {
    let text = example("plan-a").replace("done 1\n", "doen 1\ndone 1\n");
    let ended = run(&["run", "--plain"], text.as_bytes());
    assert_eq!(
        ended.output,
        b"begin peak=7 by=2 booked=6 used=6 full=857 start 1\n"
    );
    let told = "standard input:19:1: 'doen' is no command\n19 | doen 1\n   | ^^^^\nhelp: is 'done' meant?\n";
    assert_eq!((&*ended.errors, ended.status), (told, 2));
}

#[test]
fn with_go_on_it_goes_on_behind_it() {
    let whole = run(&["run", "--plain"], example("plan-a").as_bytes());
    let text = example("plan-a")
        .replace("done 1\n", "doen 1\ndone 1\ndone 3\n")
        .replace("fetch", "fetch\nfetch");
    let ended = run(&["run", "--go-on"], text.as_bytes());
    assert_eq!(ended.status, 2);
    assert_eq!(ended.errors.matches("standard input:").count(), 3);
    let plain = run(&["run", "--plain", "--go-on"], text.as_bytes());
    let accepted = plain
        .text()
        .lines()
        .filter(|line| !line.starts_with("refused"));
    assert!(accepted.eq(whole.text().lines()), "{}", plain.text());
    // With no wrong line the worst is a refusal.
    let text = text.replace("doen 1\n", "");
    assert_eq!(run(&["run", "--go-on"], text.as_bytes()).status, 1);
}

#[test]
fn a_refused_plan_takes_its_steps_along_and_leaves_the_names() {
    let text = "\
plan stations 1 places 9
step soup: parent - work 1 out 1
activation soup
begin
plan stations 1 places 9
step bread: parent - work 1 out 1
activation bread
done soup
fetch
";
    let ended = run(&["run", "--go-on"], text.as_bytes());
    let told: Vec<&str> = ended
        .errors
        .lines()
        .filter(|line| line.starts_with("standard input"))
        .collect();
    assert_eq!(told.len(), 2, "{}", ended.errors);
    assert!(told[0].contains(":5:1: plan refused (3)"), "{}", told[0]);
    assert!(
        told[1].contains(":7:12: activation 1 soup refused (3)"),
        "{}",
        told[1]
    );
    assert!(ended.text().ends_with("day is over\n"), "{}", ended.text());
}

#[test]
fn it_stops_quietly_where_nobody_reads() {
    let mut child = Command::new(PROGRAM)
        .args(["run", "--plain"])
        .stdin(Stdio::piped())
        .stdout(Stdio::piped())
        .stderr(Stdio::piped())
        .spawn()
        .unwrap();
    drop(child.stdout.take());
    let mut input = child.stdin.take().unwrap();
    for _ in 0..100 {
        let _ = input.write_all(example("plan-a").as_bytes());
    }
    drop(input);
    let output = child.wait_with_output().unwrap();
    assert_eq!(output.status.code(), Some(0));
    assert_eq!(String::from_utf8(output.stderr).unwrap(), "");
}
