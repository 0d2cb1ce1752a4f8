//! Input that is still coming in.

use std::io::{ErrorKind, Read, Result};

const CHUNK: usize = 1 << 16;

/// The bytes read so far and not yet used, and how far the input has come.
pub(crate) struct Feed<R> {
    input: R,
    chunk: Box<[u8]>,
    bytes: Vec<u8>,
    place: usize,
    dropped: u64,
}

impl<R: Read> Feed<R> {
    pub fn new(input: R) -> Feed<R> {
        Feed {
            input,
            chunk: vec![0; CHUNK].into_boxed_slice(),
            bytes: Vec::new(),
            place: 0,
            dropped: 0,
        }
    }

    /// The bytes at hand; the next command is at `place`.
    pub fn bytes(&self) -> &[u8] {
        &self.bytes
    }

    pub fn place(&self) -> usize {
        self.place
    }

    /// The place counted from the first byte of the input.
    pub fn offset(&self) -> u64 {
        self.dropped + self.place as u64
    }

    /// Whether every byte at hand is used.
    pub fn is_used_up(&self) -> bool {
        self.place == self.bytes.len()
    }

    /// Moves on by the bytes used.
    pub fn advance(&mut self, used: usize) {
        self.place += used;
    }

    /// Waits for more bytes; false at the end of the input.
    pub fn refill(&mut self) -> Result<bool> {
        let count = loop {
            match self.input.read(&mut self.chunk) {
                Err(error) if error.kind() == ErrorKind::Interrupted => {}
                result => break result?,
            }
        };
        self.bytes.drain(..self.place);
        self.dropped += self.place as u64;
        self.place = 0;
        self.bytes.extend_from_slice(&self.chunk[..count]);
        Ok(count > 0)
    }
}
