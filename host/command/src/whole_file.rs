//! A file that is there whole or not at all: written beside its place, synced, and renamed or linked into it; its
//! directory is synced too.

use std::fs::{self, File, Metadata, OpenOptions, Permissions};
use std::io::{self, ErrorKind, Write};
use std::os::unix::fs::{fchown, MetadataExt, OpenOptionsExt, PermissionsExt};
use std::path::{Path, PathBuf};

/// What is to be given to another owner is for nobody else to read before.
const PRIVATE: u32 = 0o600;
/// The mode of a new file, which the process's umask narrows.
const USUAL: u32 = 0o666;
const MODE_BITS: u32 = 0o7777;

/// Makes a file that was not there, with a mode, or the usual one. Where one is there it stays, and the answer is
/// `AlreadyExists`.
pub fn make(path: &Path, bytes: &[u8], mode: Option<u32>) -> io::Result<()> {
    let beside = Beside::write(path, bytes, mode.unwrap_or(USUAL))?;
    mode.map_or(Ok(()), |mode| beside.allow(mode))?;
    beside.take_free(path)?;
    sync_directory(path)
}

/// Puts bytes in the place of a file that is there; it keeps its mode and its owner.
pub fn replace(path: &Path, bytes: &[u8], old: &Metadata) -> io::Result<()> {
    let beside = Beside::write(path, bytes, PRIVATE)?;
    beside.give_to(old.uid(), old.gid())?;
    beside.allow(old.mode())?;
    beside.take(path)?;
    sync_directory(path)
}

/// A file in the directory of another, whose place it is to take; its own name goes away in any case.
struct Beside {
    path: PathBuf,
    file: File,
}

impl Beside {
    fn write(target: &Path, bytes: &[u8], mode: u32) -> io::Result<Self> {
        let mut beside = Beside::create(directory_of(target), mode)?;
        beside.file.write_all(bytes)?;
        Ok(beside)
    }

    /// Under a name that nobody has.
    fn create(directory: &Path, mode: u32) -> io::Result<Self> {
        let mut number = 0u64;
        loop {
            let path = directory.join(format!(".ldp-ft-{}-{number}", std::process::id()));
            match OpenOptions::new().write(true).create_new(true).mode(mode & MODE_BITS).open(&path) {
                Err(error) if error.kind() == ErrorKind::AlreadyExists => number += 1,
                opened => return opened.map(|file| Beside { path, file }),
            }
        }
    }

    fn give_to(&self, owner: u32, group: u32) -> io::Result<()> {
        let own = self.file.metadata()?;
        if (own.uid(), own.gid()) == (owner, group) {
            return Ok(());
        }
        let failed = |error: io::Error| io::Error::new(error.kind(), format!("its owner cannot be kept: {error}"));
        fchown(&self.file, Some(owner), Some(group)).map_err(failed)
    }

    fn allow(&self, mode: u32) -> io::Result<()> {
        self.file.set_permissions(Permissions::from_mode(mode & MODE_BITS))
    }

    /// Takes a place, once everything is on the medium.
    fn take(self, target: &Path) -> io::Result<()> {
        self.file.sync_all()?;
        fs::rename(&self.path, target)
    }

    /// Takes a place that is free. A link is there whole or not at all, and never in the place of another file.
    fn take_free(self, target: &Path) -> io::Result<()> {
        self.file.sync_all()?;
        match fs::hard_link(&self.path, target) {
            Err(error) if error.kind() != ErrorKind::AlreadyExists => self.take_reserved(target),
            linked => linked,
        }
    }

    /// The same on a medium without links: the name is reserved with an empty file.
    fn take_reserved(self, target: &Path) -> io::Result<()> {
        OpenOptions::new().write(true).create_new(true).open(target)?;
        fs::rename(&self.path, target).inspect_err(|_| {
            // What hindered the renaming is told; that the name cannot be given back either adds nothing.
            let _ = fs::remove_file(target);
        })
    }
}

impl Drop for Beside {
    fn drop(&mut self) {
        // Once it is renamed there is none; one that cannot be removed was told of by what hindered the writing.
        let _ = fs::remove_file(&self.path);
    }
}

fn directory_of(path: &Path) -> &Path {
    path.parent().filter(|directory| !directory.as_os_str().is_empty()).unwrap_or(Path::new("."))
}

/// A rename is on the medium when its directory is.
fn sync_directory(path: &Path) -> io::Result<()> {
    let failed =
        |error: io::Error| io::Error::new(error.kind(), format!("is there, its directory not synced: {error}"));
    File::open(directory_of(path)).and_then(|directory| directory.sync_all()).map_err(failed)
}

#[cfg(test)]
mod tests {
    use super::*;
    use support::store::Directory;

    fn names(directory: &Directory) -> Vec<String> {
        let entries = fs::read_dir(directory.path()).unwrap();
        entries.map(|entry| entry.unwrap().file_name().into_string().unwrap()).collect()
    }

    /// The old file stays as it was, and nothing is left beside it.
    #[test]
    fn a_rename_that_fails_leaves_the_old_file() {
        let directory = Directory::create("test-whole-file").unwrap();
        let target = directory.file("image");
        fs::write(&target, b"old").unwrap();
        fs::set_permissions(&target, Permissions::from_mode(0o640)).unwrap();
        let beside = Beside::write(&target, b"new", PRIVATE).unwrap();
        assert_eq!(names(&directory).len(), 2);
        fs::remove_file(&beside.path).unwrap();
        assert_eq!(beside.take(&target).unwrap_err().kind(), ErrorKind::NotFound);
        let beside = Beside::write(&target, b"new", PRIVATE).unwrap();
        assert!(beside.take(directory.path()).is_err(), "a directory is not replaced by a file");
        assert_eq!(fs::read(&target).unwrap(), b"old");
        assert_eq!(fs::metadata(&target).unwrap().mode() & MODE_BITS, 0o640);
        assert_eq!(names(&directory), ["image"]);
    }

    /// A name that was left by another run is passed over, and stays.
    #[test]
    fn a_name_beside_that_is_taken() {
        let directory = Directory::create("test-whole-file").unwrap();
        let target = directory.file("image");
        let left = directory.file(&format!(".ldp-ft-{}-0", std::process::id()));
        fs::write(&left, b"left").unwrap();
        make(&target, b"new", Some(0o604)).unwrap();
        assert_eq!((fs::read(&target).unwrap(), fs::read(&left).unwrap()), (b"new".to_vec(), b"left".to_vec()));
        assert_eq!(fs::metadata(&target).unwrap().mode() & MODE_BITS, 0o604);
        assert_eq!(make(&target, b"newer", None).unwrap_err().kind(), ErrorKind::AlreadyExists);
        assert_eq!(fs::read(&target).unwrap(), b"new");
    }

    /// As on a medium without links.
    #[test]
    fn a_name_that_is_reserved() {
        let directory = Directory::create("test-whole-file").unwrap();
        let target = directory.file("image");
        let beside = |bytes: &[u8]| Beside::write(&target, bytes, PRIVATE).unwrap();
        beside(b"new").take_reserved(&target).unwrap();
        assert_eq!(beside(b"newer").take_reserved(&target).unwrap_err().kind(), ErrorKind::AlreadyExists);
        assert_eq!((fs::read(&target).unwrap(), names(&directory)), (b"new".to_vec(), vec!["image".to_string()]));
        fs::remove_file(&target).unwrap();
        let gone = beside(b"new");
        fs::remove_file(&gone.path).unwrap();
        assert_eq!(gone.take_reserved(&target).unwrap_err().kind(), ErrorKind::NotFound);
        assert!(names(&directory).is_empty(), "the name is given back");
    }

    #[test]
    fn a_file_without_a_directory_in_its_name() {
        assert_eq!(directory_of(Path::new("image")), Path::new("."));
        assert_eq!(directory_of(Path::new("/image")), Path::new("/"));
        assert_eq!(directory_of(Path::new("a/image")), Path::new("a"));
    }
}
