//! `ldp-ft convert`: images written in another version, refused ones, and files that must not be lost.

mod tool;

use cabinet::IMAGE_SIZE;
use std::fs::{self, OpenOptions, Permissions};
use std::os::unix::fs::{chown, symlink, MetadataExt, PermissionsExt};
use std::path::{Path, PathBuf};
use std::process::{Command, Output, Stdio};
use support::store::Directory;
use tool::{run_on, run_unread, stderr, stdout, tool};
use trials::crafted::{indexed, two_held};
use trials::entries::NO_ENTRY;
use trials::stored::{word, Stored, Version, ENTRY_PLACES};

/// A folder with an image in a file, and the name of another file in it.
struct Place {
    _directory: Directory,
    from: PathBuf,
    to: PathBuf,
}

impl Place {
    fn with(image: &[u8]) -> Self {
        let directory = Directory::create("test-convert").unwrap();
        let (from, to) = (directory.file("from.img"), directory.file("to.img"));
        fs::write(&from, image).unwrap();
        Place { _directory: directory, from, to }
    }

    fn convert(&self, way: &str, options: &[&str]) -> Output {
        tool(&["convert", way]).args(options).arg(&self.from).arg(&self.to).output().unwrap()
    }
}

fn earlier() -> Stored {
    two_held().moved(Version::One).unwrap()
}

/// What is printed where all went well.
fn done(output: &Output) -> String {
    assert_eq!((output.status.code(), stderr(output).as_str()), (Some(0), ""));
    stdout(output)
}

#[test]
fn forward_and_back() {
    let place = Place::with(&earlier().image(0xD1));
    assert_eq!(done(&place.convert("forward", &[])), "version 1 converted to version 2\n");
    assert_eq!(fs::read(&place.to).unwrap(), two_held().image(0xD1));
    assert_eq!(fs::read(&place.from).unwrap(), earlier().image(0xD1), "the image given stays");
    let place = Place::with(&two_held().image(0xD1));
    assert_eq!(done(&place.convert("back", &[])), "version 2 converted to version 1\n");
    assert_eq!(fs::read(&place.to).unwrap(), earlier().image(0xD1));
}

/// An image of the first release has 65 blocks, one of the others before this has 66.
#[test]
fn an_image_of_an_earlier_release_is_extended() {
    for length in [33_280, 33_792] {
        let place = Place::with(&earlier().image(0xD1)[..length]);
        let told = format!("version 1, which had {length} bytes and was extended, converted to version 2\n");
        assert_eq!(done(&place.convert("forward", &[])), told);
        assert_eq!(fs::read(&place.to).unwrap(), two_held().image(0xD1));
        let shown = run_on(&["image", "-"], &fs::read(&place.to).unwrap());
        assert!(done(&shown).contains("state is kept over a break for 5 seconds"));
    }
}

/// Prefixes go both ways, and only what was extended has none.
#[test]
fn prefixes_are_moved() {
    let stored = indexed();
    let place = Place::with(&stored.image(0));
    done(&place.convert("back", &[]));
    let back = fs::read(&place.to).unwrap();
    assert_eq!(back, stored.moved(Version::One).unwrap().image(0));
    let place = Place::with(&back);
    done(&place.convert("forward", &[]));
    assert_eq!(fs::read(&place.to).unwrap(), stored.image(0));
    let place = Place::with(&back[..33_792]);
    done(&place.convert("forward", &[]));
    let without = Stored { entries: [NO_ENTRY; ENTRY_PLACES], ..stored };
    assert_eq!(fs::read(&place.to).unwrap(), without.image(0));
}

/// A refusal in a line, and nothing is written.
fn refusal(way: &str, image: &[u8]) -> String {
    let place = Place::with(image);
    let output = place.convert(way, &[]);
    assert_eq!((output.status.code(), stderr(&output).as_str()), (Some(1), ""));
    assert!(!place.to.exists());
    assert_eq!(fs::read(&place.from).unwrap(), image);
    stdout(&output)
}

#[test]
fn refusals_in_words() {
    let mut full = earlier();
    full.labels[119] = word(700, 3);
    assert_eq!(
        refusal("forward", &full.image(0)),
        "refused 16 block 0: the last of its 120 label words is in use, and version 2 has 119\n"
    );
    for timeout in [5_250, 65_536_000] {
        assert_eq!(
            refusal("back", &Stored { timeout, ..two_held() }.image(0)),
            "refused 16 block 0: its timeout is not whole seconds up to 65,535, and version 1 has no other\n"
        );
    }
    assert_eq!(refusal("forward", &two_held().image(0)), "refused 11 block 0: it has version 2 already\n");
    assert_eq!(refusal("back", &earlier().image(0)), "refused 11 block 0: it has version 1 already\n");
    let mut unknown = Stored::idle().image(0);
    unknown[3] = 9;
    trials::stored::seal(&mut unknown, 0);
    assert_eq!(refusal("back", &unknown), "refused 11 block 0: it has no version that is known\n");
    let mut spoilt = earlier().image(0);
    spoilt[64 * 512 + 20] ^= 1;
    assert!(
        refusal("forward", &spoilt).starts_with("refused 10 block 64: the check of block 64 (a message held) is wrong")
    );
    assert_eq!(refusal("forward", b"abc"), "refused 12 block 0: it has 3 bytes, and an image has 34816\n");
    assert!(refusal("forward", &[0; IMAGE_SIZE + 1]).starts_with("refused 12 block 0: it has more than"));
    for length in [33_280, 33_792] {
        assert!(refusal("back", &two_held().image(0)[..length]).starts_with("refused 12 block 0: an image of"));
    }
    assert_eq!(refusal("forward", &two_held().image(0)[..33_792]), "refused 11 block 0: it has version 2 already\n");
}

/// A file that is there is not lost by mistake; where it is meant, it is replaced, also the one that was read.
#[test]
fn a_file_that_is_there() {
    let place = Place::with(&earlier().image(0));
    fs::write(&place.to, b"dear").unwrap();
    let output = place.convert("forward", &[]);
    assert_eq!((output.status.code(), stdout(&output).as_str()), (Some(2), ""));
    assert!(stderr(&output).contains("is there already; --overwrite replaces it"), "{}", stderr(&output));
    assert_eq!(fs::read(&place.to).unwrap(), b"dear");
    done(&place.convert("forward", &["--overwrite"]));
    assert_eq!(fs::read(&place.to).unwrap(), two_held().image(0));
    let itself = Place { to: place.from.clone(), ..place };
    assert_eq!(itself.convert("forward", &[]).status.code(), Some(2));
    done(&itself.convert("forward", &["--overwrite"]));
    assert_eq!(fs::read(&itself.from).unwrap(), two_held().image(0));
    let output = itself.convert("forward", &["--overwrite"]);
    assert_eq!((output.status.code(), fs::read(&itself.from).unwrap()), (Some(1), two_held().image(0)));
}

/// A device or a folder is not replaced, whatever is asked for; of a link the file that it leads to is.
#[test]
fn what_is_no_file_is_not_replaced() {
    let place = Place::with(&earlier().image(0));
    for there in [PathBuf::from("/dev/null"), place.to.parent().unwrap().to_path_buf()] {
        for options in [&[][..], &["--overwrite"]] {
            let place = Place { to: there.clone(), ..Place::with(&earlier().image(0)) };
            let output = place.convert("forward", options);
            assert_eq!((output.status.code(), stdout(&output).as_str()), (Some(2), ""), "{there:?}");
            assert!(!there.is_file());
        }
    }
    fs::write(&place.to, b"dear").unwrap();
    let link = place.to.with_extension("link");
    std::os::unix::fs::symlink(&place.to, &link).unwrap();
    let linked = Place { to: link.clone(), from: place.from.clone(), ..Place::with(b"") };
    done(&linked.convert("forward", &["--overwrite"]));
    assert!(link.is_symlink() && fs::read(&place.to).unwrap() == two_held().image(0));
}

#[test]
fn standard_input_and_files_that_are_not_there() {
    let place = Place::with(b"");
    let to = place.to.to_str().unwrap();
    done(&run_on(&["convert", "back", "-", to], &two_held().image(0)));
    assert_eq!(fs::read(&place.to).unwrap(), earlier().image(0));
    let output = run_on(&["convert", "back", "/no/such/file", to], b"");
    assert_eq!((output.status.code(), stdout(&output).as_str()), (Some(2), ""));
    let output = run_on(&["convert", "back", "-", "/no/such/folder/file"], &two_held().image(0));
    assert_eq!((output.status.code(), stdout(&output).as_str()), (Some(2), ""));
}

/// A link that leads nowhere is neither replaced nor followed.
#[test]
fn a_link_that_leads_nowhere() {
    let place = Place::with(&earlier().image(0));
    symlink("nowhere", &place.to).unwrap();
    for options in [&[][..], &["--overwrite"]] {
        let output = place.convert("forward", options);
        assert_eq!((output.status.code(), stdout(&output).as_str()), (Some(2), ""));
    }
    assert!(place.to.is_symlink() && !place.to.exists());
}

fn allow(file: &Path, mode: u32) {
    fs::set_permissions(file, Permissions::from_mode(mode)).unwrap();
}

fn mode(file: &Path) -> u32 {
    fs::metadata(file).unwrap().mode() & 0o7777
}

#[test]
fn a_new_file_has_the_mode_of_what_was_read() {
    for wanted in [0o600, 0o640, 0o664] {
        let place = Place::with(&earlier().image(0));
        allow(&place.from, wanted);
        done(&place.convert("forward", &[]));
        assert_eq!(mode(&place.to), wanted);
        let read = || Stdio::from(fs::File::open(&place.from).unwrap());
        fs::remove_file(&place.to).unwrap();
        done(&tool(&["convert", "forward", "--overwrite", "-"]).arg(&place.to).stdin(read()).output().unwrap());
        assert_eq!(mode(&place.to), wanted, "standard input is that file");
    }
    let place = Place::with(b"");
    done(&run_on(&["convert", "back", "-", place.to.to_str().unwrap()], &two_held().image(0)));
    assert_eq!(mode(&place.to), mode(&place.from), "of a pipe: as every new file");
}

#[test]
fn a_file_that_is_replaced_keeps_its_mode() {
    let place = Place::with(&earlier().image(0));
    fs::write(&place.to, b"").unwrap();
    allow(&place.from, 0o600);
    allow(&place.to, 0o640);
    done(&place.convert("forward", &["--overwrite"]));
    assert_eq!((mode(&place.from), mode(&place.to)), (0o600, 0o640));
    let itself = Place { to: place.from.clone(), ..place };
    done(&itself.convert("forward", &["--overwrite"]));
    assert_eq!(mode(&itself.from), 0o600);
}

/// An owner can be another only where the test runs as root.
#[test]
fn a_file_that_is_replaced_keeps_its_owner() {
    let (owner, group) = (65_534, 65_533);
    let place = Place::with(&earlier().image(0));
    if chown(&place.from, Some(owner), Some(group)).is_err() {
        return assert_ne!(fs::metadata(&place.from).unwrap().uid(), 0, "root may give a file away");
    }
    allow(&place.from, 0o600);
    let itself = Place { to: place.from.clone(), ..place };
    done(&itself.convert("forward", &["--overwrite"]));
    let replaced = fs::metadata(&itself.from).unwrap();
    assert_eq!((replaced.uid(), replaced.gid(), mode(&itself.from)), (owner, group, 0o600));
    assert_eq!(fs::read(&itself.from).unwrap(), two_held().image(0));
}

/// Runs the tool where no file may grow beyond a few blocks, as on a full disk.
fn convert_without_room(place: &Place, options: &str) -> Output {
    let line = format!("trap '' XFSZ; ulimit -f 8; exec \"$@\" {options} \"$FROM\" \"$TO\"");
    let converts = tool(&["convert", "forward"]);
    let mut shell = Command::new("sh");
    shell.args(["-c", &line, "sh"]).arg(converts.get_program()).args(converts.get_args());
    shell.env("FROM", &place.from).env("TO", &place.to).output().unwrap()
}

#[test]
fn a_write_that_fails_leaves_what_was_there() {
    for options in ["", "--overwrite"] {
        let place = Place::with(&earlier().image(0));
        let output = convert_without_room(&place, options);
        assert_eq!((output.status.code(), stdout(&output).as_str()), (Some(2), ""), "{}", stderr(&output));
        assert!(!place.to.exists());
        fs::write(&place.to, b"dear").unwrap();
        allow(&place.to, 0o640);
        assert_eq!(convert_without_room(&place, options).status.code(), Some(2));
        assert_eq!((fs::read(&place.to).unwrap(), mode(&place.to)), (b"dear".to_vec(), 0o640));
        assert_eq!(fs::read_dir(place.to.parent().unwrap()).unwrap().count(), 2, "nothing is left beside it");
    }
}

/// The image and nothing else; what was done, or why not, is told on standard error.
#[test]
fn standard_output() {
    let output = run_on(&["convert", "forward", "-", "-"], &earlier().image(0xD1));
    assert_eq!((output.status.code(), output.stdout), (Some(0), two_held().image(0xD1)));
    assert_eq!(String::from_utf8(output.stderr).unwrap(), "ldp-ft: version 1 converted to version 2\n");
    let output = run_on(&["convert", "forward", "-", "-"], &two_held().image(0));
    assert_eq!((output.status.code(), stdout(&output).as_str()), (Some(1), ""));
    assert_eq!(stderr(&output), "ldp-ft: refused 11 block 0: it has version 2 already\n");
    assert!(!Path::new("-").exists());
}

/// Output that does not take the whole image is told, also where nobody reads it.
#[cfg(target_os = "linux")]
#[test]
fn standard_output_that_is_lost() {
    let place = Place::with(&earlier().image(0));
    let full = OpenOptions::new().write(true).open("/dev/full").unwrap();
    let output = tool(&["convert", "forward"]).arg(&place.from).arg("-").stdout(full).output().unwrap();
    assert_eq!(output.status.code(), Some(2));
    assert!(stderr(&output).starts_with("ldp-ft: standard output: "), "{}", stderr(&output));
    let output = run_unread(&["convert", "forward", "-", "-"], &earlier().image(0));
    assert_eq!(output.status.code(), Some(2));
    assert!(stderr(&output).starts_with("ldp-ft: standard output: "), "{}", stderr(&output));
}
