//! A cabinet's store in a file: whole blocks are written, and only those that a call names.

use cabinet::{Outcome, BLOCK_SIZE, IMAGE_SIZE};
use std::fs::{self, File, OpenOptions};
use std::io;
use std::os::unix::fs::FileExt;
use std::path::{Path, PathBuf};
use std::sync::atomic::{AtomicU32, Ordering};

/// The file of one cabinet. A write reaches the file at once, but is not forced to the disk: the trials end power
/// and processes, not the host.
#[derive(Debug)]
pub struct Store {
    file: File,
}

impl Store {
    /// A store of zeros, which no cabinet takes until it is formatted.
    pub fn create(path: &Path) -> io::Result<Self> {
        let file = OpenOptions::new().read(true).write(true).create(true).truncate(true).open(path)?;
        file.set_len(IMAGE_SIZE as u64)?;
        Ok(Store { file })
    }

    /// A store that is there already.
    pub fn open(path: &Path) -> io::Result<Self> {
        let file = OpenOptions::new().read(true).write(true).open(path)?;
        Ok(Store { file })
    }

    /// Writes one block of an image, whole.
    pub fn write_block(&self, image: &[u8], block: usize) -> io::Result<()> {
        let start = block * BLOCK_SIZE;
        self.file.write_all_at(&image[start..start + BLOCK_SIZE], start as u64)
    }

    /// Writes the slot that a call names.
    pub fn write_slot(&self, image: &[u8], outcome: &Outcome) -> io::Result<()> {
        if outcome.slot == 0 {
            return Ok(());
        }
        self.write_block(image, outcome.slot as usize)
    }

    /// Writes the further blocks that a call changed, in their order.
    pub fn write_further(&self, image: &[u8], outcome: &Outcome) -> io::Result<()> {
        outcome.further_blocks().try_for_each(|block| self.write_block(image, block))
    }

    /// Writes block 0 where a call changed it.
    pub fn write_block0(&self, image: &[u8], outcome: &Outcome) -> io::Result<()> {
        if outcome.block0 == 0 {
            return Ok(());
        }
        self.write_block(image, 0)
    }

    /// Writes every block, as after format.
    pub fn write_all(&self, image: &[u8]) -> io::Result<()> {
        self.file.write_all_at(image, 0)
    }

    pub fn read(&self) -> io::Result<Vec<u8>> {
        let mut image = vec![0; IMAGE_SIZE];
        self.file.read_exact_at(&mut image, 0)?;
        Ok(image)
    }
}

/// A directory for stores that goes away with its owner.
#[derive(Debug)]
pub struct Directory(PathBuf);

impl Directory {
    /// Makes a directory that was not there before, and is nobody else's. An error names it.
    pub fn create(name: &str) -> io::Result<Self> {
        static MADE: AtomicU32 = AtomicU32::new(0);
        loop {
            let made = MADE.fetch_add(1, Ordering::Relaxed);
            let path = std::env::temp_dir().join(format!("ldp-ft-{name}-{}-{made}", std::process::id()));
            match fs::create_dir(&path) {
                Ok(()) => return Ok(Directory(path)),
                Err(error) if error.kind() == io::ErrorKind::AlreadyExists => {}
                Err(error) => return Err(io::Error::new(error.kind(), format!("{}: {error}", path.display()))),
            }
        }
    }

    pub fn file(&self, name: &str) -> PathBuf {
        self.0.join(name)
    }

    pub fn path(&self) -> &Path {
        &self.0
    }
}

impl Drop for Directory {
    fn drop(&mut self) {
        // Nothing can be done about a directory that cannot be removed; it is a temporary one.
        let _ = fs::remove_dir_all(&self.0);
    }
}
