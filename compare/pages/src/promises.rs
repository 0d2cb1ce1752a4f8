//! What is proved and promised, by name: the statements that a reader starts
//! from.

use crate::tree::{Text, Tree};
use std::io;

/// A file of proofs, and what is promised of those that it proves.
const PROMISED: &[(&str, &[&str])] = &[
    ("crates/theorem/proofs/Theorem.antt", &["theorem"]),
    ("crates/demand/proofs/Demand.antt", &["every-call-holds"]),
    (
        "crates/whys/proofs/WhyHolds.antt",
        &["every-reason-holds", "one-reason"],
    ),
    (
        "crates/streams/proofs/Written.antt",
        &["every-write-holds", "one-write"],
    ),
    (
        "crates/streams/proofs/AsBefore.antt",
        &["every-one-order-holds"],
    ),
    (
        "crates/postorders/proofs/Find.antt",
        &["every-find-holds", "one-find"],
    ),
    (
        "crates/peaks/proofs/PeakHolds.antt",
        &["every-peak-holds", "one-peak"],
    ),
    ("crates/rules/proofs/Reaching.antt", &["reachable"]),
    (
        "crates/format/proofs/Bytes.antt",
        &[
            "decode-bytes-at",
            "bytes-decode",
            "decode-fits",
            "places-fit",
        ],
    ),
    (
        "crates/streams/proofs/Stream.antt",
        &["stream-holds", "enough", "through", "written"],
    ),
    ("crates/streams/proofs/Instance.antt", &["commands-lead"]),
    ("crates/texts/proofs/Parts.antt", &["as-whole"]),
    (
        "crates/texts/proofs/Printed.antt",
        &["prints", "prints-run"],
    ),
    ("crates/texts/proofs/Stepped.antt", &["steps-print"]),
    (
        "crates/reader/proofs/Next.antt",
        &["still-next", "read-onward"],
    ),
    ("crates/plan/proofs/NewPlan.antt", &["new-valid"]),
    ("crates/printing/proofs/Calls.antt", &["turn-call"]),
    (
        "crates/worked/proofs/Marked.antt",
        &[
            "marked-holds",
            "grounds-hold",
            "sentences-hold",
            "bounds-hold",
            "execution-chooses",
            "day-A",
            "day-A-alone",
        ],
    ),
    (
        "crates/worked/proofs/Worked.antt",
        &["worked-holds", "cleaned-holds"],
    ),
    (
        "crates/worked/proofs/WorkedOrder.antt",
        &["twins-found", "twins-by-number", "not-best"],
    ),
    ("crates/demand/proofs/WorkedCalls.antt", &["worked-hold"]),
];

/// A proved statement as it stands in its file.
pub struct Promise<'a> {
    pub text: &'a Text,
    /// The section that it stands in, the comment ahead of it, its name and what
    /// it says, without its proof.
    pub lines: Vec<&'a str>,
}

impl<'a> Promise<'a> {
    /// All of them. One that is not there is an error.
    pub fn all(tree: &'a Tree) -> io::Result<Vec<Promise<'a>>> {
        let names = PROMISED
            .iter()
            .flat_map(|&(path, names)| names.iter().map(move |&name| (path, name)));
        names
            .map(|(path, name)| {
                let promise = tree.text(path).and_then(|text| Promise::named(text, name));
                promise.ok_or_else(|| io::Error::other(format!("{path} proves no {name}")))
            })
            .collect()
    }

    /// The one of this name in a file.
    fn named(text: &'a Text, name: &str) -> Option<Promise<'a>> {
        let lines: Vec<&str> = text.text.lines().collect();
        let head = format!("pub {name} :");
        let place = lines
            .iter()
            .position(|line| line.trim_start().starts_with(&head))?;
        let indent = indent(lines[place]);
        let comment = lines[..place].iter().rev();
        let comment = comment.take_while(|line| line.trim_start().starts_with("--"));
        let first = place - comment.count();
        let rest = lines[place + 1..].iter();
        let last = place + rest.take_while(|line| self::indent(line) > indent).count();
        let section = section(&lines[..first]).filter(|_| indent > 0);
        let said = section
            .unwrap_or_default()
            .iter()
            .chain(&lines[first..=last]);
        Some(Promise {
            text,
            lines: said.copied().collect(),
        })
    }
}

fn indent(line: &str) -> usize {
    line.len() - line.trim_start().len()
}

/// The lines that open the last section.
fn section<'l, 'a>(lines: &'l [&'a str]) -> Option<&'l [&'a str]> {
    let first = lines.iter().rposition(|line| line.starts_with("module "))?;
    let length = lines[first..]
        .iter()
        .position(|line| line.ends_with(" where"))?;
    Some(&lines[first..=first + length])
}
