//! The bytes of a script, and its lines.

use crate::faults::Fault;
use std::io::{BufRead, Read};

/// The most bytes of a script, of a journal file, and of a line without its line feed.
const SCRIPT_BYTES: usize = 16_777_216;
const JOURNAL_BYTES: usize = 1_073_741_824;
const LINE_BYTES: usize = 2_048;

/// The first line of a journal file.
const FIRST_LINE: &[u8] = b"journal 1";

/// What was read: at most one byte more than a script may have.
pub struct Input {
    pub bytes: Vec<u8>,
    /// Whether reading failed behind these bytes.
    pub failed: bool,
    pub is_journal: bool,
}

impl Input {
    pub fn read(mut reader: impl Read) -> Input {
        let mut bytes = Vec::new();
        let mut failed = read_up_to(SCRIPT_BYTES + 1, &mut reader, &mut bytes);
        let is_journal = bytes.split(|byte| *byte == b'\n').next() == Some(FIRST_LINE);
        if is_journal && !failed {
            failed = read_up_to(JOURNAL_BYTES + 1, &mut reader, &mut bytes);
        }
        Input {
            bytes,
            failed,
            is_journal,
        }
    }

    fn most_bytes(&self) -> usize {
        if self.is_journal {
            JOURNAL_BYTES
        } else {
            SCRIPT_BYTES
        }
    }

    pub fn lines(&self) -> Lines<'_> {
        Lines {
            input: self,
            start: 0,
        }
    }
}

/// Reads until there are so many bytes, and says whether that failed.
fn read_up_to(count: usize, reader: &mut impl Read, bytes: &mut Vec<u8>) -> bool {
    let left = count - bytes.len();
    reader.take(left as u64).read_to_end(bytes).is_err()
}

/// The lines that are still to be played; in the place of one, its fault.
pub struct Lines<'a> {
    input: &'a Input,
    start: usize,
}

impl<'a> Iterator for Lines<'a> {
    type Item = Result<&'a [u8], Fault>;

    fn next(&mut self) -> Option<Self::Item> {
        let rest = &self.input.bytes[self.start..];
        let mut behind = rest;
        // Over bytes in memory this is a fast search for the line feed, and can't fail.
        let length = behind.skip_until(b'\n').unwrap_or(rest.len());
        let ended = rest[..length].strip_suffix(b"\n");
        self.start += length;
        if self.start > self.input.most_bytes() {
            return Some(Err(Fault::Size));
        }
        if ended.is_none() && self.input.failed {
            return Some(Err(Fault::Read));
        }
        let line = ended.unwrap_or(rest);
        match line.len() {
            _ if rest.is_empty() => None,
            0..=LINE_BYTES => Some(Ok(line)),
            _ => Some(Err(Fault::Long)),
        }
    }
}
