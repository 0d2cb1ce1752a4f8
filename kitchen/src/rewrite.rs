//! Lines of a file replaced by others. The file is written anew beside itself
//! and then takes the old one's place, so that a power cut leaves one of both.

use crate::console::{failed, Stop};
use crate::journal::is_journal;
use crate::message::{Message, Status};
use std::ffi::{OsStr, OsString};
use std::fs::{self, File};
use std::io::{self, Write};
use std::path::Path;

pub struct Wanted {
    /// The lines to be left out, counted from 1.
    pub replaced: Vec<usize>,
    /// Where no line is left out, the text comes behind this one.
    pub behind: usize,
    /// What comes in place of the first that is left out.
    pub text: String,
}

pub fn rewrite(path: &OsStr, wanted: &Wanted) -> Result<(), Stop> {
    let shown = path.to_string_lossy();
    let old = fs::read(path).map_err(|error| failed(&shown, &error))?;
    if is_journal(&old) {
        let what = "it is a journal, which only its own run writes to";
        return Err(Message::new(Status::Wrong, what).about(&shown).into());
    }
    let new = replaced(&old, wanted);
    replace(Path::new(path), &new).map_err(|error| failed(&shown, &error).into())
}

/// The file with the lines replaced.
fn replaced(old: &[u8], wanted: &Wanted) -> Vec<u8> {
    let mut new = Vec::with_capacity(old.len() + wanted.text.len());
    let first = wanted.replaced.first();
    for (line, number) in old.split_inclusive(|&byte| byte == b'\n').zip(1..) {
        if first == Some(&number) {
            new.extend(wanted.text.as_bytes());
        }
        if wanted.replaced.contains(&number) {
            continue;
        }
        new.extend(line);
        if first.is_none() && number == wanted.behind {
            if !line.ends_with(b"\n") {
                new.push(b'\n');
            }
            new.extend(wanted.text.as_bytes());
        }
    }
    new
}

fn replace(path: &Path, bytes: &[u8]) -> io::Result<()> {
    // A link stays a link: what it leads to is replaced.
    let path = fs::canonicalize(path)?;
    let mut beside = OsString::from(path.as_os_str());
    beside.push(".new");
    let written = write_new(Path::new(&beside), bytes, &fs::metadata(&path)?);
    let result = written.and_then(|()| fs::rename(&beside, &path));
    if result.is_err() {
        let _ = fs::remove_file(&beside);
    }
    result
}

fn write_new(path: &Path, bytes: &[u8], like: &fs::Metadata) -> io::Result<()> {
    let mut file = File::create_new(path)?;
    file.write_all(bytes)?;
    file.set_permissions(like.permissions())?;
    file.sync_all()
}
