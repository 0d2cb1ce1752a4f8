//! The page of functions: each public function with its contract.

use crate::contracts::{Function, Kind};
use crate::page::Page;
use crate::tree::{Crate, Tree};
use std::io;

/// The crates for callers, in the order in which a caller meets them.
pub const CALLED: [&str; 16] = [
    "cephlouk", "desk", "reader", "plan", "words", "answer", "refusal", "question", "reason",
    "writer", "finding", "measure", "codec", "put", "lines", "printing",
];

/// What a function for callers may ask: that the words are a valid plan.
const ASKED: [&str; 2] = [
    "requires { ValidPlan plan.now.words }",
    "requires { ValidPlan plan.old.words }",
];

const LEAD: &str = "\
Written by `make guarantees` from the crates, as they stand there; `make test` fails where this page is stale. Each public function with what it asks
(`requires`) and what it promises (`ensures`, or the `ghost` line of a trait); one without `requires` asks nothing. Each is proved to meet its contract,
to be safe (no index out of range, no sum that wraps, no cast that loses bits, no zero divisor) and to end. What the contracts cite stands in
`docs/generated/statements.md` for the functions for callers, and for the others in the `specs/` of their crate. Behind the functions of a crate for callers
stands what it hands on of a crate that none lists.";

pub fn page(tree: &Tree) -> io::Result<Page> {
    let mut page = Page::new("functions.md", "Functions", LEAD);
    page.heading(2, "For callers");
    for name in CALLED {
        let one = tree.find(name).expect("a crate for callers");
        let told = told_of(one, true).chain(handed_on(tree, one));
        print_crate(&mut page, name, told.collect(), true)?;
    }
    page.heading(2, "The parts of these, which no caller lists");
    for one in &tree.crates {
        if !CALLED.contains(&one.name.as_str()) {
            print_crate(&mut page, &one.name, told_of(one, false).collect(), false)?;
        }
    }
    Ok(page)
}

/// What is promised of all that callers reach: it asks for no more than a valid
/// plan, and no text of it is made of which no contract says anything, as a
/// derived `Debug` would.
fn is_for_callers(function: &Function) -> bool {
    let mut lines = function.lines.iter().map(|line| line.trim());
    lines.all(|line| {
        let asks_more = line.starts_with("requires") && !ASKED.contains(&line);
        let is_unsaid = line.starts_with("#[derive(") && line.contains("Debug");
        !asks_more && !is_unsaid
    })
}

/// The functions of a crate and, for callers, its types.
fn told_of(one: &Crate, is_called: bool) -> impl Iterator<Item = Function<'_>> {
    let all = one.sources.iter().flat_map(Function::all);
    all.filter(move |one| one.kind == Kind::Public || one.kind == Kind::Type && is_called)
}

/// What a crate for callers hands on of a crate that none lists.
fn handed_on<'a>(tree: &'a Tree, one: &'a Crate) -> impl Iterator<Item = Function<'a>> {
    let lines = one.sources.iter().flat_map(|text| text.text.lines());
    let uses = lines.filter_map(|line| line.strip_prefix("pub use ")?.split_once("::"));
    uses.filter(|(name, _)| !CALLED.contains(name))
        .filter_map(|(name, words)| Some((tree.find(name)?, words)))
        .flat_map(|(other, words)| {
            let words: Vec<&str> = words.split(['{', ',', ' ', '}', ';']).collect();
            told_of(other, true).filter(move |one| words.contains(&one.root()))
        })
}

fn print_crate(
    page: &mut Page,
    name: &str,
    functions: Vec<Function>,
    is_called: bool,
) -> io::Result<()> {
    if functions.is_empty() {
        return Ok(());
    }
    if let Some(other) = functions
        .iter()
        .find(|one| is_called && !is_for_callers(one))
    {
        let name = other.name();
        let told = format!(
            "{}: `{name}` is not for callers: it asks for more than a valid plan, or has a `Debug`",
            other.path
        );
        return Err(io::Error::other(told));
    }
    page.heading(3, &format!("`{name}`"));
    for group in functions.chunk_by(|one, next| one.path == next.path) {
        page.paragraph(&format!("`{}`:", group[0].path));
        let texts: Vec<String> = group.iter().map(text).collect();
        page.block(&texts.join("\n\n"));
    }
    Ok(())
}

/// A function of a type stands below the name of the type.
fn text(function: &Function) -> String {
    let lines = function.lines.join("\n");
    match function.name().split_once("::") {
        Some((owner, _)) if !function.is_of_trait => format!("impl {owner}\n{lines}"),
        _ => lines,
    }
}

#[cfg(test)]
mod tests {
    use super::*;
    use crate::tree::Text;

    /// Whether all of a file is for callers.
    fn are_for_callers(text: &str) -> bool {
        let text = Text {
            path: "src/lib.rt".to_string(),
            text: text.to_string(),
        };
        Function::all(&text).iter().all(is_for_callers)
    }

    #[test]
    fn a_valid_plan_may_be_asked() {
        assert!(are_for_callers(
            "pub fn phase(plan: &Plan) -> u32\n    requires { ValidPlan plan.now.words }\n{\n    1\n}\n"
        ));
        assert!(are_for_callers(
            "#[derive(Clone, Copy)]\npub struct One {\n}\n"
        ));
    }

    /// A crate of one file.
    fn one(name: &str, text: &str) -> Crate {
        Crate {
            name: name.to_string(),
            specs: Vec::new(),
            proofs: Vec::new(),
            sources: vec![Text {
                path: format!("crates/{name}/src/lib.rt"),
                text: text.to_string(),
            }],
        }
    }

    #[test]
    fn what_is_handed_on_is_for_callers_too() {
        let level = "#[derive(Clone, Debug)]\npub struct Peaked {\n}\n\npub struct Other {\n}\n";
        let tree = Tree {
            crates: vec![
                one("survey", level),
                one(
                    "desk",
                    "pub use survey::{Peaked, survey};\nuse survey::Other;\n",
                ),
            ],
        };
        let told: Vec<Function> = handed_on(&tree, &tree.crates[1]).collect();
        assert_eq!(
            told.iter().map(Function::name).collect::<Vec<_>>(),
            ["Peaked"]
        );
        assert!(!is_for_callers(&told[0]));
    }

    #[test]
    fn more_is_told() {
        assert!(!are_for_callers(
            "pub fn cell(plan: &Plan) -> u32\n    requires { line ≤ rows }\n{\n    1\n}\n"
        ));
        assert!(!are_for_callers(
            "impl Cells for Plan {\n    fn cell(&self) -> u32\n        requires { line ≤ rows }\n    {\n        1\n    }\n}\n"
        ));
        assert!(!are_for_callers(
            "#[derive(Clone, Debug)]\npub struct One {\n}\n"
        ));
    }
}
