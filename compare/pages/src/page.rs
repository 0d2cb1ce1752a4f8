//! A page in Markdown.

use std::fs;
use std::io;

/// Where the pages are.
const FOLDER: &str = "docs/generated";

/// A page and its text so far.
pub struct Page {
    name: &'static str,
    text: String,
}

impl Page {
    /// A page with its title and what it says ahead of all else.
    pub fn new(name: &'static str, title: &str, lead: &str) -> Page {
        let mut page = Page {
            name,
            text: format!("# {title}\n"),
        };
        page.paragraph(lead);
        page
    }

    pub fn heading(&mut self, level: usize, heading: &str) {
        self.paragraph(&format!("{} {heading}", "#".repeat(level)));
    }

    pub fn paragraph(&mut self, text: &str) {
        self.text.push_str(&format!("\n{text}\n"));
    }

    /// Lines of the crates, as they stand.
    pub fn block(&mut self, lines: &str) {
        self.paragraph(&format!("```\n{lines}\n```"));
    }

    /// A table by its head and its rows.
    pub fn table<const COLUMNS: usize>(
        &mut self,
        head: [&str; COLUMNS],
        rows: impl Iterator<Item = [String; COLUMNS]>,
    ) {
        let lines: Vec<String> = [head.map(String::from), head.map(|_| "---".to_string())]
            .into_iter()
            .chain(rows)
            .map(|cells| {
                format!(
                    "| {} |",
                    cells.map(|cell| cell.replace('|', "\\|")).join(" | ")
                )
            })
            .collect();
        self.paragraph(&lines.join("\n"));
    }

    pub fn path(&self) -> String {
        format!("{FOLDER}/{}", self.name)
    }

    pub fn write(&self) -> io::Result<()> {
        fs::create_dir_all(FOLDER)?;
        fs::write(self.path(), &self.text)
    }

    /// Whether the file has this text.
    pub fn is_as_written(&self) -> bool {
        fs::read_to_string(self.path()).is_ok_and(|text| text == self.text)
    }
}
