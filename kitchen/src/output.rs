//! Files that are written whole.

use crate::console::{failed, Console, Stop};
use crate::input::STANDARD;
use std::ffi::OsStr;
use std::fs::File;
use std::io::Write;

/// Writes bytes to a file, or to standard output where none is named.
pub fn write_to(console: &mut Console, file: Option<&OsStr>, bytes: &[u8]) -> Result<(), Stop> {
    match file.filter(|&file| file != STANDARD) {
        None => console.bytes(bytes),
        Some(path) => {
            let written = File::create(path).and_then(|mut file| {
                file.write_all(bytes)?;
                file.sync_all().or(Ok(()))
            });
            written.map_err(|error| failed(&path.to_string_lossy(), &error).into())
        }
    }
}
