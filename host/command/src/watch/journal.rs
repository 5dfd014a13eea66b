//! The owner's own record of messages, a line each beside the store: the FT number, then the bytes in hexadecimal.

use std::fs::{self, File, OpenOptions};
use std::io::{self, Write};
use std::path::Path;
use support::hex;

/// A message as its owner recorded it, with its FT number.
#[derive(Clone, Debug, PartialEq, Eq, PartialOrd, Ord)]
pub struct Entry {
    pub number: u32,
    pub message: Vec<u8>,
}

/// Messages in the order in which they were accepted or secured.
pub struct Journal {
    file: File,
    pub messages: Vec<Vec<u8>>,
    /// The number of the last message, 0 where there is none.
    pub last: u32,
}

impl Journal {
    /// Opens the journal of a store that knows of the messages through a number. A line is written before the block 0
    /// that makes it true, so after a power cut the last line may be one that the store knows nothing of; it is taken
    /// back. Any other difference is a fault.
    pub fn open(path: &Path, known: u32) -> io::Result<Self> {
        let mut entries = if path.exists() { read(path)? } else { Vec::new() };
        entries.pop_if(|last| last.number > known);
        let last = entries.last().map_or(0, |last| last.number);
        if last != known {
            return Err(io::Error::other(format!("the records end with number {last}, the store with {known}")));
        }
        let text: String = entries.iter().map(|entry| line(entry.number, &entry.message)).collect();
        fs::write(path, text)?;
        let file = OpenOptions::new().append(true).open(path)?;
        Ok(Journal { file, messages: entries.into_iter().map(|entry| entry.message).collect(), last })
    }

    pub fn add(&mut self, number: u32, message: &[u8]) -> io::Result<()> {
        self.file.write_all(line(number, message).as_bytes())?;
        self.messages.push(message.to_vec());
        self.last = number;
        Ok(())
    }
}

fn line(number: u32, message: &[u8]) -> String {
    format!("{number} {}\n", hex::digits(message))
}

fn entry(line: &str) -> Option<Entry> {
    let (number, digits) = line.split_once(' ')?;
    Some(Entry { number: number.parse().ok()?, message: hex::bytes(digits.as_bytes())? })
}

/// All messages of a journal.
pub fn read(path: &Path) -> io::Result<Vec<Entry>> {
    let entries: Option<_> = fs::read_to_string(path)?.lines().map(entry).collect();
    entries.ok_or(io::Error::other("a record that is no number and hexadecimal"))
}
