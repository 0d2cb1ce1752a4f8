//! The crates and their files.

use std::fs;
use std::io;
use std::path::Path;

/// All crates, in the order in which they are listed.
pub struct Tree {
    pub crates: Vec<Crate>,
}

/// A crate with its texts.
pub struct Crate {
    pub name: String,
    pub specs: Vec<Text>,
    pub proofs: Vec<Text>,
    pub sources: Vec<Text>,
}

/// A file of a crate.
pub struct Text {
    pub path: String,
    pub text: String,
}

impl Text {
    /// The name of the file without its folder and its kind.
    pub fn stem(&self) -> &str {
        let name = self.path.rsplit('/').next().unwrap_or_default();
        name.split('.').next().unwrap_or_default()
    }
}

impl Tree {
    pub fn read() -> io::Result<Tree> {
        let list = fs::read_to_string("crates.txt")?;
        let names = list
            .lines()
            .filter(|line| !line.starts_with('#'))
            .filter_map(|line| line.split_once(':'));
        // A static library says so behind its name.
        let crates = names.filter_map(|(name, _)| Some(Crate::read(name.split(' ').next()?)));
        Ok(Tree {
            crates: crates.collect::<io::Result<_>>()?,
        })
    }

    pub fn find(&self, name: &str) -> Option<&Crate> {
        self.crates.iter().find(|one| one.name == name)
    }

    /// A file by its path.
    pub fn text(&self, path: &str) -> Option<&Text> {
        self.crates
            .iter()
            .flat_map(|one| one.specs.iter().chain(&one.proofs).chain(&one.sources))
            .find(|text| text.path == path)
    }
}

impl Crate {
    fn read(name: &str) -> io::Result<Crate> {
        let folder = |part: &str| format!("crates/{name}/{part}");
        Ok(Crate {
            name: name.to_string(),
            specs: in_order(files(&folder("specs"), ".antt")?),
            proofs: files(&folder("proofs"), ".antt")?,
            sources: files(&folder("src"), ".rt")?,
        })
    }
}

/// The files of a kind in a folder, by name; none where there is no folder.
pub fn files(folder: &str, kind: &str) -> io::Result<Vec<Text>> {
    if !Path::new(folder).is_dir() {
        return Ok(Vec::new());
    }
    let mut paths = Vec::new();
    for entry in fs::read_dir(folder)? {
        let path = format!("{folder}/{}", entry?.file_name().to_string_lossy());
        if path.ends_with(kind) {
            paths.push(path);
        }
    }
    paths.sort();
    paths
        .into_iter()
        .map(|path| fs::read_to_string(&path).map(|text| Text { path, text }))
        .collect()
}

/// The files of definitions in the order in which their `Lib.antt` names them.
fn in_order(texts: Vec<Text>) -> Vec<Text> {
    let (lists, mut texts): (Vec<_>, Vec<_>) =
        texts.into_iter().partition(|text| text.stem() == "Lib");
    let order: Vec<&str> = lists
        .iter()
        .flat_map(|list| list.text.lines())
        .filter_map(|line| line.strip_prefix("pub mod "))
        .collect();
    texts.sort_by_key(|text| order.iter().position(|&name| name == text.stem()));
    texts
}
