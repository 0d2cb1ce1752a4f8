//! The page of wrong edits: each with what it is aimed at.

use crate::contracts::Function;
use crate::items::Item;
use crate::page::Page;
use crate::tree::{files, Crate, Text, Tree};
use std::io;

const LEAD: &str = "\
Written by `make guarantees` from the crates, as they stand there; `make test` fails where this page is stale. Each wrong edit that the check must
refuse, with the function or the statement whose text it changes. The last column is the first line of the edit's comment: what is right, or what the
edit gets wrong. `make test` tries those of its name, some in a group that shares a check, `make edits` all, each by itself.";

/// Who tries the edits of a folder.
const TRIED: [(&str, &str); 3] = [
    ("must-fail", "`make test`"),
    ("edits/grouped", "`make test`, in a group"),
    ("edits/more", "`make edits`"),
];

/// An edit in its file.
struct Edit<'a> {
    path: &'a str,
    name: &'a str,
    comment: &'a str,
    /// The file that it changes, within its crate.
    file: &'a str,
    /// What it takes out, piece by piece, and what it puts there.
    pieces: Vec<(&'a str, &'a str)>,
}

impl<'a> Edit<'a> {
    fn of(text: &'a Text) -> Edit<'a> {
        let pieces = |word: &'static str| {
            let lines = text.text.lines();
            lines.filter_map(move |line| line.strip_prefix(word))
        };
        Edit {
            path: &text.path,
            name: text.stem(),
            comment: pieces("# ").next().unwrap_or("–"),
            file: pieces("file: ").next().unwrap_or_default(),
            pieces: pieces("old: ").zip(pieces("new: ")).collect(),
        }
    }

    /// A text with its pieces in place, each put where the ones before it left
    /// what it takes out.
    fn applied(&self, text: &str) -> Option<String> {
        let mut pieces = self.pieces.iter();
        pieces.try_fold(text.to_string(), |text, (old, new)| {
            text.contains(old).then(|| text.replacen(old, new, 1))
        })
    }

    /// The function or the definition in which the first line that it changes,
    /// of those that are in one, stands. An edit of what is no longer there is
    /// an error.
    fn aim(&self, text: Option<&Text>) -> io::Result<String> {
        let aim = text.and_then(|text| {
            let applied = self.applied(&text.text)?;
            let lines = text.text.lines().zip(applied.lines()).enumerate();
            let mut places = lines.filter(|(_, (old, new))| old != new);
            places.find_map(|(place, _)| aim_at(text, place))
        });
        aim.ok_or_else(|| {
            io::Error::other(format!("{}: {} has no such text", self.path, self.file))
        })
    }
}

/// What stands at a place of a file.
fn aim_at(text: &Text, place: usize) -> Option<String> {
    if text.path.ends_with(".rt") {
        let functions = Function::all(text);
        let function = functions.iter().find(|one| one.places.contains(&place))?;
        return Some(function.name());
    }
    let items = Item::all(text);
    let item = items.iter().find(|one| one.places.contains(&place))?;
    Some(match item.field_at(place) {
        Some(field) => format!("{}.{field}", item.name),
        None => item.name.to_string(),
    })
}

pub fn page(tree: &Tree) -> io::Result<Page> {
    let mut page = Page::new("edits.md", "Wrong edits", LEAD);
    for one in &tree.crates {
        let rows = rows(tree, one)?;
        if !rows.is_empty() {
            page.heading(2, &format!("`{}`", one.name));
            let head = ["edit", "tried by", "aimed at", "file", "comment"];
            page.table(head, rows.into_iter());
        }
    }
    Ok(page)
}

/// The edits of a crate, those of the gate first.
fn rows(tree: &Tree, one: &Crate) -> io::Result<Vec<[String; 5]>> {
    let mut rows = Vec::new();
    for (folder, tried) in TRIED {
        let mut texts = files(&format!("crates/{}/{folder}", one.name), ".edit")?;
        texts.retain(|text| !text.stem().starts_with("group_"));
        for text in &texts {
            let edit = Edit::of(text);
            let aim = edit.aim(tree.text(&format!("crates/{}/{}", one.name, edit.file)))?;
            let [name, aim, file] = [edit.name, &aim, edit.file].map(|word| format!("`{word}`"));
            rows.push([name, tried.to_string(), aim, file, edit.comment.to_string()]);
        }
    }
    Ok(rows)
}
