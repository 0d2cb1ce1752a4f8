//! The command `cephlouk` on the texts of streams, beside what the peer has:
//! the lines of a day, the plan written out, the order found, and why steps are
//! not starting.

use kitchen::sheet::Sheet;
use kitchen::text::{commands, stream, tidy};
use peer::{Plan, Reason};
use std::fmt::Write as _;
use std::io::Write as _;
use std::process::{Command, Stdio};
use std::thread;

const COMMAND: &str = concat!(
    env!("CARGO_MANIFEST_DIR"),
    "/../kitchen/target/release/cephlouk"
);
const PRINTER: &str = concat!(env!("CARGO_MANIFEST_DIR"), "/../target/bin/printer");

/// Something that is asked with arguments and an input, and prints.
pub type Asked = fn(&[&str], &[u8]) -> Vec<u8>;

/// The command.
pub fn command(arguments: &[&str], input: &[u8]) -> Vec<u8> {
    printed(COMMAND, arguments, input)
}

/// The proved printer, which takes bytes and no arguments.
pub fn printer(_: &[&str], input: &[u8]) -> Vec<u8> {
    printed(PRINTER, &[], input)
}

fn printed(program: &str, arguments: &[&str], input: &[u8]) -> Vec<u8> {
    let mut child = Command::new(program)
        .args(arguments)
        .stdin(Stdio::piped())
        .stdout(Stdio::piped())
        .stderr(Stdio::null())
        .spawn()
        .unwrap_or_else(|error| panic!("{program}: {error}"));
    let mut standard = child.stdin.take().expect("a pipe to write to");
    let input = input.to_vec();
    // It may stop before it has taken all.
    let writer = thread::spawn(move || drop(standard.write_all(&input)));
    let output = child.wait_with_output().expect("it ends");
    writer.join().expect("the input was written");
    output.stdout
}

/// What was compared.
#[derive(Default, Debug)]
pub struct Tally {
    pub lines: usize,
    pub refused: usize,
    pub outside_limits: usize,
    pub written: usize,
    pub found: usize,
    pub reasons: usize,
}

/// The text of a stream's whole commands.
pub fn text_of(bytes: &[u8]) -> String {
    tidy(&commands(bytes).0, &Sheet::default())
}

/// Compares all that is asked of the text of a stream.
pub fn compare(
    bytes: &[u8],
    asked: Asked,
    printer: Asked,
    tally: &mut Tally,
) -> Result<(), String> {
    let text = text_of(bytes);
    let (read, fault) = stream(&text);
    if !bytes.starts_with(&read) {
        return Err(format!(
            "the text of a stream is not read back as it was:\n{text}"
        ));
    }
    let lines = asked(&["run", "--plain"], text.as_bytes());
    check(
        "run --plain and the proved printer",
        &lines,
        &printer(&[], &read),
        &text,
    )?;
    check(
        "run --plain and the peer's printer",
        &lines,
        &lines_by_peer(&read),
        &text,
    )?;
    tally.lines += lines.split(|&byte| byte == b'\n').count() - 1;
    if fault.is_some() {
        tally.outside_limits += 1;
        return Ok(());
    }
    let answer = |subcommand: &[&str]| {
        let arguments = [subcommand, &["--json", "-"]].concat();
        String::from_utf8_lossy(&asked(&arguments, text.as_bytes())).into_owned()
    };
    let led = match lead(&read, |_| true) {
        Ok(plan) => plan,
        Err(number) => {
            tally.refused += 1;
            let told = answer(&["write"]);
            return refused("write", number, &told, &text);
        }
    };
    compare_written(&led, asked, &answer, &text, tally)?;
    compare_why(&led, &answer, &text, tally)?;
    compare_order(&read, &answer, &text, tally)
}

fn compare_written(
    plan: &Plan,
    asked: Asked,
    answer: &impl Fn(&[&str]) -> String,
    text: &str,
    tally: &mut Tally,
) -> Result<(), String> {
    let mut list = vec![0; Plan::WRITTEN];
    let wrote = plan.write(&mut list);
    if wrote.number != 0 {
        return refused("write", wrote.number, &answer(&["write"]), text);
    }
    tally.written += 1;
    let got = asked(&["write", "--bytes"], text.as_bytes());
    check("write --bytes", &got, &list[..wrote.count], text)?;
    let got = asked(&["write"], text.as_bytes());
    check(
        "write",
        &got,
        text_of(&list[..wrote.count]).as_bytes(),
        text,
    )
}

/// The order is found from the plans and steps of a text alone.
fn compare_order(
    read: &[u8],
    answer: &impl Fn(&[&str]) -> String,
    text: &str,
    tally: &mut Tally,
) -> Result<(), String> {
    let got = answer(&["order"]);
    let mut list = vec![0; Plan::TASKS];
    let wrote = match lead(read, |byte| byte <= 2) {
        Ok(plan) => plan.find_order(&mut list),
        Err(number) => return refused("order", number, &got, text),
    };
    if wrote.number != 0 {
        return refused("order", wrote.number, &got, text);
    }
    tally.found += 1;
    let order: Vec<String> = list[..wrote.count].iter().map(u16::to_string).collect();
    let wanted = format!("{{\"activation\":[{}]", order.join(","));
    let front = got.split_once(']').map_or("", |(front, _)| front);
    check(
        "order",
        format!("{front}]").as_bytes(),
        wanted.as_bytes(),
        text,
    )
}

/// Of every step that has not started.
fn compare_why(
    plan: &Plan,
    answer: &impl Fn(&[&str]) -> String,
    text: &str,
    tally: &mut Tally,
) -> Result<(), String> {
    let got = answer(&["why"]);
    if let Reason::Refused(3) = plan.why(1) {
        // Its phase is told in words, and no number.
        let is_told = got.contains("\"status\":1");
        return if is_told {
            Ok(())
        } else {
            Err(differ("why", got.as_bytes(), b"status 1", text))
        };
    }
    let mut wanted = String::new();
    for step in 1.. {
        let reason = match plan.why(step) {
            Reason::Refused(_) => break,
            Reason::Ended | Reason::Running => continue,
            Reason::NotBooked { first, lack } => {
                format!("\"not booked\",\"first\":{first},\"lacks\":{lack}")
            }
            Reason::Unfed(child) => format!("\"unfed\",\"child\":{child}"),
            Reason::NoProcessor => "\"no station\"".to_string(),
        };
        tally.reasons += 1;
        let _ = writeln!(wanted, "{{\"step\":{step},\"reason\":{reason}");
    }
    let without_words =
        |line: &str| line.split(",\"answer\"").next().unwrap_or("").to_string() + "\n";
    let got: String = got.lines().map(without_words).collect();
    check("why", got.as_bytes(), wanted.as_bytes(), text)
}

/// The peer's plan that the commands of a stream lead to, those whose byte
/// counts, or the number of the first refusal.
fn lead(bytes: &[u8], counts: fn(u8) -> bool) -> Result<Plan, u8> {
    let (mut plan, mut place) = (Plan::new(), 0);
    let mut starts = [0; Plan::STARTS];
    while let Ok((_, used)) = peer::decode(bytes, place) {
        if counts(bytes[place]) {
            let answer = plan.command(bytes, place, &mut starts);
            if answer.number != 0 {
                return Err(answer.number);
            }
        }
        place += used;
    }
    Ok(plan)
}

pub fn lines_by_peer(bytes: &[u8]) -> Vec<u8> {
    let mut output = Vec::new();
    peer::printer::print(bytes, &mut output).expect("memory can be written");
    output
}

fn refused(what: &str, number: u8, got: &str, text: &str) -> Result<(), String> {
    let wanted = format!("\"refused\":{number},");
    match got.contains(&wanted) {
        true => Ok(()),
        false => Err(differ(what, got.as_bytes(), wanted.as_bytes(), text)),
    }
}

fn check(what: &str, got: &[u8], wanted: &[u8], text: &str) -> Result<(), String> {
    match got == wanted {
        true => Ok(()),
        false => Err(differ(what, got, wanted, text)),
    }
}

fn differ(what: &str, got: &[u8], wanted: &[u8], text: &str) -> String {
    let (got, wanted) = (
        String::from_utf8_lossy(got),
        String::from_utf8_lossy(wanted),
    );
    format!("{what}: got\n{got}\nwhere this is wanted\n{wanted}\non the text\n{text}")
}

#[cfg(test)]
mod tests {
    use super::*;

    /// One step, begun and ended, and one more report of it.
    const DAY: &[u8] = &[
        0x01, 1, 0, 1, 9, 0, 0, 0, 0x02, 0, 0, 1, 0, 1, 0, 0x03, 1, 0, 0x04, 1, 0, 0x05,
    ];

    fn by_peer(_: &[&str], input: &[u8]) -> Vec<u8> {
        lines_by_peer(input)
    }

    /// The command as it should answer the day above.
    fn right(arguments: &[&str], input: &[u8]) -> Vec<u8> {
        let bytes = stream(&String::from_utf8_lossy(input)).0;
        match arguments {
            ["run", "--plain"] => lines_by_peer(&bytes),
            ["write", "--bytes"] => bytes[..21].to_vec(),
            ["write"] => text_of(&bytes[..21]).into_bytes(),
            ["order", ..] => b"{\"activation\":[1],\"peak\":2,\"by\":1}\n".to_vec(),
            _ => Vec::new(),
        }
    }

    fn compared(asked: Asked, printer: Asked) -> Result<(), String> {
        compare(DAY, asked, printer, &mut Tally::default())
    }

    #[test]
    fn right_answers_are_the_same() {
        compared(right, by_peer).unwrap();
    }

    #[test]
    fn faults_are_told() {
        let line: Asked = |arguments, input| match arguments {
            ["run", ..] => b"begin\n".to_vec(),
            _ => right(arguments, input),
        };
        assert!(compared(line, by_peer)
            .unwrap_err()
            .starts_with("run --plain and the proved"));
        let both: Asked = |_, _| b"begin\n".to_vec();
        assert!(compared(line, both)
            .unwrap_err()
            .starts_with("run --plain and the peer's"));
        let byte: Asked = |arguments, input| match arguments {
            ["write", "--bytes"] => vec![1; 21],
            _ => right(arguments, input),
        };
        assert!(compared(byte, by_peer)
            .unwrap_err()
            .starts_with("write --bytes: "));
        let text: Asked = |arguments, input| match arguments {
            ["write"] => b"plan\n".to_vec(),
            _ => right(arguments, input),
        };
        assert!(compared(text, by_peer).unwrap_err().starts_with("write: "));
        let order: Asked = |arguments, input| match arguments {
            ["order", ..] => b"{\"activation\":[2],\"peak\":2}\n".to_vec(),
            _ => right(arguments, input),
        };
        assert!(compared(order, by_peer).unwrap_err().starts_with("order: "));
        let why: Asked = |arguments, input| match arguments {
            ["why", ..] => {
                b"{\"step\":1,\"reason\":\"unfed\",\"child\":1,\"answer\":\"\"}\n".to_vec()
            }
            _ => right(arguments, input),
        };
        assert!(compared(why, by_peer).unwrap_err().starts_with("why: "));
        let silent: Asked = |arguments, input| match arguments {
            ["run", ..] => right(arguments, input),
            _ => Vec::new(),
        };
        let refused = [DAY, &[0x05]].concat();
        let told = compare(&refused, silent, by_peer, &mut Tally::default());
        assert!(told.unwrap_err().starts_with("write: "));
    }
}
