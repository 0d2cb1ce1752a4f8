//! The page of statements: what is proved, what that says, and the definitions
//! that it rests on.

use crate::contracts::{Function, Kind};
use crate::functions::CALLED;
use crate::items::Item;
use crate::names::Names;
use crate::page::Page;
use crate::promises::Promise;
use crate::reach::Definitions;
use crate::tree::Tree;
use std::collections::BTreeSet;
use std::io;

const LEAD: &str = "\
Written by `make guarantees` from the crates, as they stand there; `make test` fails where this page is stale. First what is proved. Then each
statement that a proof, or the contract of a function for callers, cites: records and definitions of what is true or not. Last the definitions that
these rest on, in the order of the layers: what a reader must believe.";

pub fn page(tree: &Tree) -> io::Result<Page> {
    let definitions = Definitions::of(tree);
    let promises = Promise::all(tree)?;
    let mut page = Page::new("statements.md", "Statements", LEAD);
    print_promises(&mut page, &promises);
    let reached = definitions.reached(&cited(tree, &definitions, &promises));
    let statements = definitions.statements();
    let chosen = |is_statement: bool| {
        let chosen = reached
            .iter()
            .filter(|index| statements.contains(index) == is_statement);
        chosen.map(|&index| &definitions.items[index]).collect()
    };
    print_statements(&mut page, chosen(true));
    print_definitions(&mut page, chosen(false));
    Ok(page)
}

/// What the proved statements and the contracts for callers cite.
fn cited(tree: &Tree, definitions: &Definitions, promises: &[Promise]) -> BTreeSet<usize> {
    let mut cited = BTreeSet::new();
    for promise in promises {
        let names = Names::of(promise.text);
        let lines = promise.lines.iter().copied();
        let code = lines.filter(|line| !line.trim_start().starts_with("--"));
        cited.extend(definitions.cites(promise.text, &names, code));
    }
    let called = CALLED.iter().filter_map(|name| tree.find(name));
    for text in called.flat_map(|one| &one.sources) {
        let names = Names::of(text);
        for function in Function::all(text) {
            if function.kind == Kind::Public {
                cited.extend(definitions.cites(text, &names, function.contract()));
            }
        }
    }
    cited
}

fn print_promises(page: &mut Page, promises: &[Promise]) {
    page.heading(2, "What is proved");
    for group in promises.chunk_by(|one, next| one.text.path == next.text.path) {
        page.paragraph(&format!("`{}`:", group[0].text.path));
        let texts: Vec<String> = group.iter().map(|one| one.lines.join("\n")).collect();
        page.block(&texts.join("\n\n"));
    }
}

/// A heading for each file and each statement, so that a page can point to it.
fn print_statements(page: &mut Page, items: Vec<&Item>) {
    page.heading(2, "What that says");
    for group in items.chunk_by(|one, next| one.path == next.path) {
        page.paragraph(&format!("`{}`:", group[0].path));
        for item in group {
            page.heading(3, &format!("`{}`", item.name));
            page.block(&item.text());
        }
    }
}

/// The definitions of a file in one block.
fn print_definitions(page: &mut Page, items: Vec<&Item>) {
    page.heading(2, "The definitions that it rests on");
    for group in items.chunk_by(|one, next| one.path == next.path) {
        page.heading(3, &format!("`{}`", group[0].path));
        let texts: Vec<String> = group.iter().map(|item| item.text()).collect();
        page.block(&texts.join("\n\n"));
    }
}
