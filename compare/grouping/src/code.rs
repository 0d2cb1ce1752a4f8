//! The code of a crate, as it stands and as edits make it.

use crate::edit::Edit;
use crate::source::{Files, Source};
use std::path::Path;
use std::{fs, io};

pub struct Code {
    name: String,
    files: Files,
    pub source: Source,
}

impl Code {
    pub fn read(name: &str) -> io::Result<Code> {
        let mut files = Files::new();
        read_folder(&format!("crates/{name}"), "src", &mut files)?;
        Ok(Code::of(name, files))
    }

    pub fn of(name: &str, files: Files) -> Code {
        Code {
            source: Source::of(name, &files),
            name: name.to_string(),
            files,
        }
    }

    /// What edits make of it, one after another.
    pub fn edited<'a>(&self, edits: impl IntoIterator<Item = &'a Edit>) -> Option<Source> {
        let mut files = self.files.clone();
        for edit in edits {
            edit.apply(&mut files)?;
        }
        Some(Source::of(&self.name, &files))
    }
}

fn read_folder(root: &str, folder: &str, files: &mut Files) -> io::Result<()> {
    for entry in fs::read_dir(Path::new(root).join(folder))? {
        let entry = entry?;
        let path = format!("{folder}/{}", entry.file_name().to_string_lossy());
        if entry.file_type()?.is_dir() {
            read_folder(root, &path, files)?;
        } else {
            files.insert(path, fs::read_to_string(entry.path())?);
        }
    }
    Ok(())
}
