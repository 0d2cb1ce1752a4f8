//! Accepted commands kept in a file, and taken up again after a power cut.
//!
//! A journal is a plan text, a command a line: every other subcommand can read
//! it. At the end of a line stand, as a comment, how many bytes its text has, and a
//! checksum of it and of all lines above. A line that does not end was cut off by the
//! power; a line that ends and is not as it was written was changed.

use crate::console::{failed, Stop};
use crate::day::Day;
use crate::explain;
use crate::message::{Message, Status};
use crate::script::refused;
use crate::text::{one_line, visible, Given, Place, Reader, Said};
use cephlouk::Command;
use std::ffi::OsStr;
use std::fs::{File, OpenOptions, TryLockError};
use std::io::{self, Read, Seek, SeekFrom, Write};
use std::path::Path;

/// The first line of every journal.
const HEADER: &str = "# journal of cephlouk, one accepted command a line\n";
/// Ahead of the length and the checksum of a line.
const TRAILER: &str = " #";

/// A journal that is open for writing.
pub struct Journal {
    /// Its name in messages.
    pub shown: String,
    file: File,
    /// Where the next record goes.
    end: u64,
    /// Of all lines so far.
    checksum: u32,
    is_synced: bool,
}

/// What a journal had in it.
pub struct Kept {
    /// The day that its commands lead to.
    pub day: Day,
    pub given: Vec<Given>,
    /// The bytes of a last record that was cut off, and is gone now.
    pub torn: u64,
}

impl Journal {
    /// Opens a journal, or begins one. Where it was changed, or the rules refuse
    /// what it says, it is left as it is.
    pub fn open(path: &OsStr) -> Result<(Journal, Kept), Stop> {
        let shown = visible(&path.to_string_lossy());
        let fail = |error: io::Error| Stop::from(failed(&shown, &error));
        let mut options = OpenOptions::new();
        let mut file = options
            .read(true)
            .write(true)
            .create(true)
            .truncate(false)
            .open(path)
            .map_err(fail)?;
        if !file.metadata().map_err(fail)?.is_file() {
            let what = "a journal is kept in a file on a disk, and this is none";
            return Err(Message::new(Status::Failed, what).about(&shown).into());
        }
        lock(&file, &shown)?;
        let mut bytes = Vec::new();
        file.read_to_end(&mut bytes).map_err(fail)?;
        let mut journal = Journal {
            shown: shown.clone(),
            file,
            end: 0,
            checksum: 0,
            is_synced: true,
        };
        let kept = journal.take_up(&bytes)?;
        journal.make_whole(path).map_err(fail)?;
        Ok((journal, kept))
    }

    /// Appends a command that was accepted; it is kept once it is synced.
    pub fn append(&mut self, given: &Given, step: usize) -> Result<(), Stop> {
        let record = record(&one_line(given, step), self.checksum);
        let written = self.file.write_all(record.as_bytes());
        self.is_synced = false;
        if let Err(error) = written {
            // What was written of it is no record; a next run would cut it off.
            let _ = self.file.set_len(self.end);
            return Err(self.lost(given, &error));
        }
        self.checksum = checksum(self.checksum, record.as_bytes());
        self.end += record.len() as u64;
        Ok(())
    }

    /// All that was appended is on the disk.
    pub fn sync(&mut self) -> Result<(), Stop> {
        if !self.is_synced {
            let synced = self.file.sync_data();
            synced.map_err(|error| failed(&self.shown, &error))?;
            self.is_synced = true;
        }
        Ok(())
    }

    fn lost(&self, given: &Given, error: &io::Error) -> Stop {
        let message = failed(&self.shown, error);
        let what = format!("'{}' is not kept: {}", given.place.said(), message.what);
        let help = "it was not answered; give it again once the file can be written";
        Message { what, ..message }.helped(help).into()
    }

    /// Takes up the lines, up to one that was cut off.
    fn take_up(&mut self, bytes: &[u8]) -> Result<Kept, Stop> {
        let mut kept = Kept {
            day: Day::default(),
            given: Vec::new(),
            torn: 0,
        };
        let mut reader = Reader::default();
        let whole = bytes.len()
            - bytes
                .rsplit(|&byte| byte == b'\n')
                .next()
                .map_or(0, <[u8]>::len);
        kept.torn = (bytes.len() - whole) as u64;
        let is_new = HEADER.as_bytes().starts_with(bytes);
        if is_new {
            return Ok(kept);
        }
        if !is_journal(bytes) {
            let what = "it is no journal, and is left as it is";
            return Err(Message::new(Status::Wrong, what).about(&self.shown).into());
        }
        for line in bytes[..whole].split_inclusive(|&byte| byte == b'\n') {
            let text = self.check(line)?;
            self.give(&mut kept, &mut reader, &text)?;
            self.checksum = checksum(self.checksum, line);
            self.end += line.len() as u64;
        }
        Ok(kept)
    }

    /// The text of a line that is as it was written.
    fn check(&self, line: &[u8]) -> Result<String, Stop> {
        let text = String::from_utf8_lossy(line);
        let said = text.rsplit_once(TRAILER).map_or("", |(said, _)| said);
        if self.end == 0 || record(said, self.checksum).as_bytes() == line {
            return Ok(text.into_owned());
        }
        let what = format!(
            "byte {} and those behind it are not as they were written",
            self.end
        );
        let help = "nothing was changed; take the file's copy, or the lines above into a new one";
        let message = Message::new(Status::Failed, what).about(&self.shown);
        Err(message.helped(help).into())
    }

    /// Gives the command of a line to the day.
    fn give(&self, kept: &mut Kept, reader: &mut Reader, text: &str) -> Result<(), Stop> {
        let heard = reader.line(text, &kept.day.sheet);
        if let Some(fault) = heard.fault {
            return Err(Message::of_fault(&self.shown, fault).into());
        }
        for said in heard.said {
            let Said::Command(given) = said else {
                continue;
            };
            if let Err(refusal) = kept.day.give(&given) {
                let explained = explain::refusal(&kept.day, given.command, refusal, None);
                return Err(refused(&self.shown, given.place, refusal, explained).into());
            }
            kept.given.push(given);
        }
        Ok(())
    }

    /// Cuts off what is no record, and writes the first line where it is missing.
    fn make_whole(&mut self, path: &OsStr) -> io::Result<()> {
        self.file.set_len(self.end)?;
        self.file.seek(SeekFrom::Start(self.end))?;
        if self.end == 0 {
            self.file.write_all(HEADER.as_bytes())?;
            self.checksum = checksum(0, HEADER.as_bytes());
            self.end = HEADER.len() as u64;
        }
        self.file.sync_all()?;
        // That there is such a file is in its folder.
        match Path::new(path).parent() {
            Some(folder) if folder.as_os_str().is_empty() => File::open(".")?.sync_all(),
            Some(folder) => File::open(folder)?.sync_all(),
            None => Ok(()),
        }
    }
}

/// Whether a file of these bytes is a journal.
pub fn is_journal(bytes: &[u8]) -> bool {
    bytes.starts_with(HEADER.as_bytes())
}

/// One writer at a time.
fn lock(file: &File, shown: &str) -> Result<(), Stop> {
    match file.try_lock() {
        Ok(()) => Ok(()),
        Err(TryLockError::WouldBlock) => {
            let what = "another run keeps its day in it";
            Err(Message::new(Status::Failed, what).about(shown).into())
        }
        Err(TryLockError::Error(error)) => Err(failed(shown, &error).into()),
    }
}

/// The line of a text behind lines of a checksum.
fn record(text: &str, before: u32) -> String {
    let sum = checksum(before, text.as_bytes());
    format!("{text}{TRAILER}{} {sum:08x}\n", text.len())
}

/// CRC-32 of bytes behind others of a checksum.
fn checksum(before: u32, bytes: &[u8]) -> u32 {
    const POLYNOMIAL: u32 = 0xedb8_8320;
    let mut sum = !before;
    for &byte in bytes {
        sum ^= u32::from(byte);
        for _ in 0..u8::BITS {
            sum = (sum >> 1) ^ (POLYNOMIAL * (sum & 1));
        }
    }
    !sum
}

/// A journal's command and the place that says another.
pub fn differs(file: &str, place: &Place, kept: &Command, day: &Day) -> Message {
    let what = format!("the journal has '{}' here", explain::said(day, *kept));
    let message = Message::new(Status::Refused, what).about(file);
    Message {
        place: Some(place.clone()),
        ..message
    }
    .helped("a text that is run again with its journal says the same, and may go on behind it")
}
