//! The records and definitions of a file, one paragraph each.

use crate::tree::Text;
use std::ops::Range;

/// What a heading begins with, ahead of the name.
const HEADINGS: [&str; 8] = [
    "pub record ",
    "pub data ",
    "abbrev pub ",
    "unfoldable pub ",
    "record ",
    "data ",
    "abbrev ",
    "unfoldable ",
];

/// A record or a definition as it stands in its file.
pub struct Item<'a> {
    pub path: &'a str,
    pub name: &'a str,
    /// Its lines, the comment ahead of it included.
    pub lines: Vec<&'a str>,
    /// Where they stand in the file.
    pub places: Range<usize>,
    /// The line that opens the section that it stands in.
    section: Option<&'a str>,
}

impl<'a> Item<'a> {
    /// Those of a file, in their order.
    pub fn all(text: &'a Text) -> Vec<Item<'a>> {
        let lines: Vec<&str> = text.text.lines().collect();
        let mut section = None;
        let mut items = Vec::new();
        for places in paragraphs(&lines) {
            let (first, places) = match lines[places.start].starts_with("module ") {
                true => (Some(lines[places.start]), places.start + 1..places.end),
                false => (section, places),
            };
            let lines = &lines[places.clone()];
            section = first.filter(|_| lines.iter().all(|line| line.starts_with(' ')));
            if let Some(name) = lines.iter().find_map(|line| headed(line)) {
                items.push(Item {
                    path: &text.path,
                    name,
                    lines: lines.to_vec(),
                    places,
                    section,
                });
            }
        }
        items
    }

    /// Its text as it stands, below the line of its section.
    pub fn text(&self) -> String {
        let lines: Vec<&str> = self.section.into_iter().chain(self.lines.clone()).collect();
        lines.join("\n")
    }

    /// Its text without comments.
    pub fn code(&self) -> impl Iterator<Item = &'a str> + '_ {
        self.section
            .into_iter()
            .chain(self.lines.iter().copied())
            .filter(|line| !line.trim_start().starts_with("--"))
    }

    /// Whether it is a type: a record, or a definition of what is true or not.
    pub fn is_type(&self) -> bool {
        let heading = self.code().find(|line| headed(line).is_some());
        let heading = heading.unwrap_or_default();
        heading.ends_with("Type 0") || heading.ends_with("Type 0 where")
    }

    /// The names that it brings: its own and those of its cases.
    pub fn brings(&self) -> impl Iterator<Item = &'a str> + '_ {
        let is_data = self
            .code()
            .any(|line| line.trim_start().starts_with("pub data "));
        let cases = self.code().filter(move |_| is_data).filter_map(case);
        std::iter::once(self.name).chain(cases)
    }

    /// The field at a place of the file.
    pub fn field_at(&self, place: usize) -> Option<&'a str> {
        let ahead = &self.lines[..=place - self.places.start];
        let mut fields = ahead.iter().filter_map(|line| line.strip_prefix("  pub "));
        fields.next_back().and_then(|line| line.split(" :").next())
    }
}

/// Runs of lines that are not empty.
fn paragraphs(lines: &[&str]) -> Vec<Range<usize>> {
    let mut paragraphs = Vec::new();
    let mut start = 0;
    for end in 0..=lines.len() {
        if end == lines.len() || lines[end].is_empty() {
            if start < end {
                paragraphs.push(start..end);
            }
            start = end + 1;
        }
    }
    paragraphs
}

/// The name that a line is the heading of.
fn headed(line: &str) -> Option<&str> {
    let line = line.trim_start();
    let name = HEADINGS
        .iter()
        .find_map(|heading| line.strip_prefix(heading))?;
    name.split_whitespace().next()
}

/// The name of a case of a data type.
fn case(line: &str) -> Option<&str> {
    let (name, _) = line.strip_prefix("  ")?.split_once(" :")?;
    (!name.contains(' ')).then_some(name)
}
