//! The FT numbers of the messages that were left out, as the owner notes them beside the store, a line each, before the
//! next message leaves. A kill in between loses nothing: the same ones are passed over on the next connection.

use std::collections::BTreeSet;
use std::fs::{self, File, OpenOptions};
use std::io::{self, Write};
use std::path::Path;

pub struct LeftOut {
    file: File,
    pub numbers: BTreeSet<u32>,
}

impl LeftOut {
    pub fn open(path: &Path) -> io::Result<Self> {
        let file = OpenOptions::new().create(true).append(true).open(path)?;
        Ok(LeftOut { file, numbers: read(path)? })
    }

    /// A message that is passed over again was noted already.
    pub fn add(&mut self, number: u32) -> io::Result<()> {
        if self.numbers.insert(number) {
            self.file.write_all(format!("{number}\n").as_bytes())?;
        }
        Ok(())
    }
}

/// All numbers noted.
pub fn read(path: &Path) -> io::Result<BTreeSet<u32>> {
    let numbers: Result<_, _> = fs::read_to_string(path)?.lines().map(str::parse).collect();
    numbers.map_err(|_| io::Error::other("a note that is no number"))
}
