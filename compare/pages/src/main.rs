//! Writes the pages of `docs/generated/` that tell what the crates promise:
//! `guarantees`. With `--check` it writes nothing, and fails where a page is
//! not as it would be written.

mod contracts;
mod edits;
mod functions;
mod items;
mod names;
mod page;
mod promises;
mod reach;
mod statements;
mod tree;

use page::Page;
use std::io;
use std::process::ExitCode;
use tree::Tree;

/// All pages, as the crates stand.
fn pages() -> io::Result<Vec<Page>> {
    let tree = Tree::read()?;
    Ok(vec![
        statements::page(&tree)?,
        functions::page(&tree)?,
        edits::page(&tree)?,
    ])
}

/// Writes the pages, or tells those that are stale.
fn run(is_check: bool) -> io::Result<ExitCode> {
    let mut stale = 0;
    for page in pages()? {
        if !is_check {
            page.write()?;
        } else if !page.is_as_written() {
            println!("guarantees: {} is stale: make guarantees", page.path());
            stale += 1;
        }
    }
    Ok(match stale {
        0 => ExitCode::SUCCESS,
        _ => ExitCode::FAILURE,
    })
}

fn main() -> ExitCode {
    let arguments: Vec<String> = std::env::args().skip(1).collect();
    let is_check = match arguments.as_slice() {
        [] => false,
        [word] if word == "--check" => true,
        _ => {
            println!("guarantees [--check]");
            return ExitCode::FAILURE;
        }
    };
    run(is_check).unwrap_or_else(|error| {
        println!("guarantees: {error}");
        ExitCode::FAILURE
    })
}
