//! What the names in a file mean.

use crate::tree::Text;
use std::collections::HashMap;

/// The names that a file takes from definitions: by themselves, and of whole
/// files.
#[derive(Default)]
pub struct Names {
    taken: HashMap<String, String>,
    files: HashMap<String, String>,
}

impl Names {
    /// Those of a file of definitions, of proofs or of code.
    pub fn of(text: &Text) -> Names {
        let mut names = Names::default();
        for line in text.text.lines() {
            let line = line.strip_prefix("ghost ").unwrap_or(line);
            if let Some(used) = line.strip_prefix("use Rattle.") {
                names.take(used.trim_end_matches(';'));
            }
        }
        names
    }

    /// Takes what a line uses: `crate.specs.File.{a, b}`, `crate.specs.File` or
    /// `crate.specs.File as name`.
    fn take(&mut self, used: &str) {
        let (path, rest) = match used.split_once(".{") {
            Some((path, list)) => (path, Some(list.trim_end_matches('}'))),
            None => (used, None),
        };
        let (path, alias) = match path.split_once(" as ") {
            Some((path, alias)) => (path, alias),
            None => (path, path.rsplit('.').next().unwrap_or(path)),
        };
        let Some(path) = file(path) else { return };
        for name in rest.into_iter().flat_map(|list| list.split(", ")) {
            self.taken.insert(name.to_string(), path.clone());
        }
        if rest.is_none() {
            self.files.insert(alias.to_string(), path);
        }
    }

    /// The file and the name that a word stands for, in the file at `path`. What
    /// is behind the name are fields.
    pub fn meaning<'w>(&self, path: &str, word: &'w str) -> (String, &'w str) {
        if let Some((file, rest)) = word.split_once('.') {
            if let Some(path) = self.files.get(file) {
                return (path.clone(), first(rest));
            }
        }
        let word = first(word);
        let path = self.taken.get(word).map_or(path, String::as_str);
        (path.to_string(), word)
    }
}

/// A word without the fields behind it.
fn first(word: &str) -> &str {
    word.split('.').next().unwrap_or(word)
}

/// The path of a file of definitions, from `crate.specs.File`.
fn file(used: &str) -> Option<String> {
    let mut parts = used.split('.');
    let name = parts.next()?;
    match [parts.next()?, parts.next()?, parts.next().unwrap_or("")] {
        ["specs", file, ""] => Some(format!("crates/{name}/specs/{file}.antt")),
        _ => None,
    }
}

/// The words of a line of definitions or of a contract.
pub fn words(line: &str) -> impl Iterator<Item = &str> {
    line.split(|c: char| c.is_whitespace() || "(){}[];,λ".contains(c))
        .filter(|word| !word.is_empty() && !word.starts_with('.'))
        .map(|word| word.trim_end_matches('.'))
}
