//! Writes `must-fail/group_*.edit` of each crate from the single edits in its
//! `edits/grouped/`: `groups`. With `--check` it writes nothing, and fails where
//! a crate's groups are not as they would be written.

mod code;
mod edit;
mod functions;
mod group;
mod source;
#[cfg(test)]
mod tests;
mod words;

use code::Code;
use edit::Edit;
use group::{groups, Wrong};
use std::process::ExitCode;
use std::{fs, io};

/// The groups of a crate as they stand, and as they would be written.
struct Crate {
    name: String,
    singles: usize,
    standing: Vec<Edit>,
    grouped: Vec<Edit>,
}

impl Crate {
    fn read(name: String) -> io::Result<Crate> {
        let code = Code::read(&name)?;
        let folder = format!("crates/{name}/must-fail");
        let single = format!("crates/{name}/edits/grouped");
        let singles = Edit::all(&single, "")?;
        let mut wrong = Vec::new();
        for edit in &singles {
            wrong.push(Wrong::of(&code, edit).ok_or_else(|| {
                io::Error::other(format!(
                    "{single}/{}.edit is not within one function: it belongs in {folder}",
                    edit.name
                ))
            })?);
        }
        Ok(Crate {
            singles: singles.len(),
            standing: Edit::all(&folder, "group_")?,
            grouped: groups(&code, &wrong),
            name,
        })
    }

    fn write(&self) -> io::Result<()> {
        for edit in &self.standing {
            fs::remove_file(self.path(edit))?;
        }
        for edit in &self.grouped {
            fs::write(self.path(edit), &edit.text)?;
        }
        Ok(())
    }

    fn path(&self, edit: &Edit) -> String {
        format!("crates/{}/must-fail/{}.edit", self.name, edit.name)
    }
}

fn crates() -> io::Result<Vec<Crate>> {
    let mut names = Vec::new();
    for entry in fs::read_dir("crates")? {
        names.push(entry?.file_name().to_string_lossy().into_owned());
    }
    names.sort();
    names.into_iter().map(Crate::read).collect()
}

/// Writes the groups, or tells those that are stale.
fn run(is_check: bool) -> io::Result<ExitCode> {
    let crates = crates()?;
    let mut code = ExitCode::SUCCESS;
    for one in crates.iter().filter(|one| one.standing != one.grouped) {
        if is_check {
            println!(
                "groups: those of crates/{} are stale: make groups",
                one.name
            );
            code = ExitCode::FAILURE;
        } else {
            one.write()?;
        }
    }
    let singles: usize = crates.iter().map(|one| one.singles).sum();
    let grouped: usize = crates.iter().map(|one| one.grouped.len()).sum();
    println!("groups: {singles} wrong functions share {grouped} checks");
    Ok(code)
}

fn main() -> ExitCode {
    let arguments: Vec<String> = std::env::args().skip(1).collect();
    let is_check = match arguments.as_slice() {
        [] => false,
        [word] if word == "--check" => true,
        _ => {
            println!("groups [--check]");
            return ExitCode::FAILURE;
        }
    };
    run(is_check).unwrap_or_else(|error| {
        println!("groups: {error}");
        ExitCode::FAILURE
    })
}
