//! `ldp-ft convert forward|back IN OUT`: a stored image in another version, in a file of its own or on standard output.

use crate::image::{failed_check, version};
use crate::{complain, of_file, of_output, print, read_image, status, whole_file, Ended};
use cabinet::{Cabinet, Converted, IMAGE_SIZE, IMAGE_SIZE_WITHOUT_INDEX, IMAGE_SIZE_WITHOUT_REQUESTS};
use ldp_ft::Library;
use std::ffi::OsStr;
use std::fs::{self, File, Metadata};
use std::io::{self, ErrorKind, Write};
use std::os::fd::{AsFd, BorrowedFd};
use std::os::unix::fs::MetadataExt;
use std::path::Path;
use support::options::{Known, Options};

/// What `convert` takes: a direction and two files.
pub const KNOWN: Known = Known { flags: &["overwrite"], values: &[], files: 3 };

/// The two ways of the converter.
#[derive(Clone, Copy)]
enum Way {
    Forward,
    Back,
}

impl Way {
    fn of(word: &OsStr) -> Result<Self, String> {
        match word.to_str() {
            Some("forward") => Ok(Way::Forward),
            Some("back") => Ok(Way::Back),
            _ => Err(format!("convert goes forward or back, not {word:?}; `ldp-ft convert --help` says more")),
        }
    }

    /// The versions from which and to which it goes.
    fn versions(self) -> (u32, u32) {
        match self {
            Way::Forward => (1, 2),
            Way::Back => (2, 1),
        }
    }

    fn convert(self, image: &[u8], out: &mut [u8]) -> Converted {
        match self {
            Way::Forward => Library.convert_forward(image, out),
            Way::Back => Library.convert_back(image, out),
        }
    }

    /// Why an image is not moved.
    fn reason(self, image: &[u8], refused: &Converted) -> String {
        let (from, to) = self.versions();
        match (refused.answer, refused.block) {
            (16, _) => match self {
                Way::Forward => "the last of its 120 label words is in use, and version 2 has 119".to_string(),
                Way::Back => "its timeout is not whole seconds up to 65,535, and version 1 has no other".to_string(),
            },
            (11, 0) if version(image) == Some(to) => format!("it has version {to} already"),
            (11, 0) if version(image) != Some(from) => "it has no version that is known".to_string(),
            (answer, block) => failed_check(image, answer, block),
        }
    }
}

/// Moves an image and writes it; where it is refused nothing is written.
pub fn run(options: &Options) -> Ended {
    let [way, from, to] = options.files.as_slice() else {
        return Err("it needs a direction and two files".to_string());
    };
    let (way, to) = (Way::of(way)?, Target::of(to));
    let mut image = read_image(from)?;
    let length = image.len();
    let extended = extend(way, &mut image);
    let mut converted = vec![0; IMAGE_SIZE];
    let result = way.convert(&image, &mut converted);
    if result.answer != 0 {
        let reason = way.reason(&image, &result);
        to.tell(&format!("refused {} block {}: {reason}", result.answer, result.block))?;
        return Ok(status::REFUSED);
    }
    match to {
        Target::Output => write_output(&converted)?,
        Target::File(file) => write(file, &converted, mode_of(from), options.is_given("overwrite"))?,
    }
    let (before, after) = way.versions();
    let size = if extended { format!(", which had {length} bytes and was extended,") } else { String::new() };
    to.tell(&format!("version {before}{size} converted to version {after}"))
}

/// Where the image goes.
#[derive(Clone, Copy)]
enum Target<'a> {
    /// Standard output, which then has the image and nothing else.
    Output,
    File(&'a OsStr),
}

impl<'a> Target<'a> {
    fn of(file: &'a OsStr) -> Self {
        if file == "-" {
            Target::Output
        } else {
            Target::File(file)
        }
    }

    /// A line on what was done, where the image is not.
    fn tell(self, line: &str) -> Ended {
        match self {
            Target::Output => complain(line),
            Target::File(_) => return print(&format!("{line}\n")),
        }
        Ok(status::DONE)
    }
}

/// An image of an earlier release may lack further blocks, which are made first.
fn extend(way: Way, image: &mut Vec<u8>) -> bool {
    let length = image.len();
    let is_short = [IMAGE_SIZE_WITHOUT_REQUESTS, IMAGE_SIZE_WITHOUT_INDEX].contains(&length);
    let is_extended = matches!(way, Way::Forward) && is_short;
    if is_extended {
        image.resize(IMAGE_SIZE, 0);
        Library.extend(image, length);
    }
    is_extended
}

/// The mode of the file that was read, also where it is standard input; none of a pipe.
fn mode_of(file: &OsStr) -> Option<u32> {
    let read = if file == "-" { of_descriptor(io::stdin().as_fd()) } else { fs::metadata(file) };
    read.ok().filter(Metadata::is_file).map(|file| file.mode())
}

fn of_descriptor(descriptor: BorrowedFd) -> io::Result<Metadata> {
    File::from(descriptor.try_clone_to_owned()?).metadata()
}

/// Every byte, or it fails: that nobody reads on is a fault here. A file is on the medium when it returns.
fn write_output(bytes: &[u8]) -> Result<(), String> {
    let mut output = io::stdout().lock();
    let written = output.write_all(bytes).and_then(|()| output.flush()).and_then(|()| {
        let file = File::from(output.as_fd().try_clone_to_owned()?);
        if file.metadata()?.is_file() {
            file.sync_all()?;
        }
        Ok(())
    });
    written.map_err(of_output)
}

/// Makes a file, with the mode of the one that was read; or, where that is asked for, puts the image in the place of
/// one that is there.
fn write(file: &OsStr, bytes: &[u8], mode: Option<u32>, overwrite: bool) -> Result<(), String> {
    let failed = |error: io::Error| match error.kind() {
        ErrorKind::AlreadyExists => format!("{}: is there already; --overwrite replaces it", file.to_string_lossy()),
        _ => of_file(file, error),
    };
    let path = Path::new(file);
    if fs::metadata(path).is_ok_and(|there| !there.is_file()) {
        return Err(format!("{}: is no file that can be replaced", file.to_string_lossy()));
    }
    if !overwrite || fs::symlink_metadata(path).is_err_and(|error| error.kind() == ErrorKind::NotFound) {
        return whole_file::make(path, bytes, mode).map_err(failed);
    }
    let target = fs::canonicalize(path).map_err(failed)?;
    fs::metadata(&target).and_then(|old| whole_file::replace(&target, bytes, &old)).map_err(failed)
}
