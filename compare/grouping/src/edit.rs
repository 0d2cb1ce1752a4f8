//! A wrong edit: texts that are replaced, as `rt` replaces them.

use crate::source::Files;
use std::path::Path;
use std::{fs, io};

#[derive(PartialEq)]
pub struct Edit {
    pub name: String,
    pub text: String,
}

impl Edit {
    /// Those of a folder whose names begin so, in order; none where there is no
    /// such folder.
    pub fn all(folder: &str, begin: &str) -> io::Result<Vec<Edit>> {
        let mut edits = Vec::new();
        if !Path::new(folder).is_dir() {
            return Ok(edits);
        }
        for entry in fs::read_dir(folder)? {
            let path = entry?.path();
            let file = path.file_name().unwrap_or_default().to_string_lossy();
            match file.strip_suffix(".edit") {
                Some(name) if name.starts_with(begin) => edits.push(Edit {
                    name: name.to_string(),
                    text: fs::read_to_string(&path)?,
                }),
                _ => {}
            }
        }
        edits.sort_by(|a, b| (a.name.len(), &a.name).cmp(&(b.name.len(), &b.name)));
        Ok(edits)
    }

    /// Replaces, one pair after another. Each old text must be there once.
    pub fn apply(&self, files: &mut Files) -> Option<()> {
        let mut file = "";
        let mut old = "";
        for line in self.text.lines() {
            if let Some(path) = line.strip_prefix("file: ") {
                file = path;
            } else if let Some(text) = line.strip_prefix("old: ") {
                old = text;
            } else if let Some(new) = line.strip_prefix("new:") {
                let text = files.get_mut(file)?;
                if text.matches(old).count() != 1 {
                    return None;
                }
                *text = text.replace(old, new.strip_prefix(' ').unwrap_or(new));
            }
        }
        Some(())
    }
}
