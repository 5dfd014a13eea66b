//! The tool for people: `ldp-ft image`, `ldp-ft convert`, `ldp-ft dump` and `ldp-ft watch`, on the library's C
//! boundary.

mod addresses;
mod convert;
pub mod dump;
mod holdings;
pub mod image;
mod json;
pub mod malformed;
mod message;
mod names;
mod usage;
mod version;
mod watch;
mod whole_file;

use dump::Trouble;
use std::ffi::{OsStr, OsString};
use std::fs::File;
use std::io::{self, BufRead, BufReader, ErrorKind, Read, Write};
use support::options::{Known, Options};

/// How a command ends.
pub mod status {
    pub const DONE: u8 = 0;
    /// The input is refused, or the pair's accounts are not in order.
    pub const REFUSED: u8 = 1;
    /// Wrong usage, or a file that cannot be read or written.
    pub const TROUBLE: u8 = 2;
    /// A signal ended it: its number is added, as a shell does.
    pub const SIGNALLED: u8 = 128;
}

/// A command's status, or a line on what hindered it.
type Ended = Result<u8, String>;

/// Runs the tool with its arguments and gives its exit status.
pub fn run(arguments: impl Iterator<Item = OsString>) -> u8 {
    let arguments: Vec<OsString> = arguments.collect();
    let (name, rest) = match arguments.split_first() {
        Some((name, rest)) => (name.to_str().unwrap_or_default(), rest),
        None => ("", &[][..]),
    };
    let asks_for_help = |word: &OsString| word == "--help" || word == "-h";
    let result = match usage::of(name) {
        Some(help) if rest.iter().take_while(|word| *word != "--").any(asks_for_help) => print(help),
        _ => obey(name, rest),
    };
    result.unwrap_or_else(|what| {
        complain(&what);
        status::TROUBLE
    })
}

/// A line on standard error; where that is closed too, the status alone tells.
fn complain(what: &str) {
    let _ = writeln!(io::stderr(), "ldp-ft: {what}");
}

/// Makes one command of the tool.
fn obey(name: &str, rest: &[OsString]) -> Ended {
    let options = |known: &Known| {
        let hint = |what: String| format!("{what}; `ldp-ft {name} --help` says more");
        Options::read(known, rest.iter().cloned()).map_err(hint)
    };
    match name {
        "image" => image_command(&options(&FILE)?),
        "convert" => convert::run(&options(&convert::KNOWN)?),
        "dump" => dump_command(&options(&FILE)?),
        "watch" => watch::run(&options(&watch::KNOWN)?),
        watch::CABINET => watch::run_cabinet(&options(&watch::KNOWN_CABINET)?),
        "--help" | "-h" | "help" => print(usage::TOOL),
        "--version" | "-V" => print(&version::in_words()),
        "" => Err(format!("it needs a command\n{}", usage::TOOL.trim_end())),
        _ => Err(format!("there is no command {name:?}\n{}", usage::TOOL.trim_end())),
    }
}

/// What `image` and `dump` take.
const FILE: Known = Known { flags: &["json"], values: &[], files: 1 };

fn image_command(options: &Options) -> Ended {
    let report = image::report(&read_image(&options.files[0])?, options.is_given("json"));
    print(&report.text)?;
    Ok(if report.refused { status::REFUSED } else { status::DONE })
}

/// The bytes of a file, no more than tell an image from what is none.
fn read_image(file: &OsStr) -> Result<Vec<u8>, String> {
    let mut image = Vec::new();
    open(file)?.take(image::LONGEST).read_to_end(&mut image).map_err(|error| of_file(file, error))?;
    Ok(image)
}

fn dump_command(options: &Options) -> Ended {
    let file = &options.files[0];
    let name = file.to_string_lossy();
    let sound = dump::dump(&name, &mut open(file)?, &mut io::stdout().lock(), options.is_given("json"));
    match sound {
        Ok(true) => Ok(status::DONE),
        Ok(false) => Ok(status::REFUSED),
        Err(Trouble::Input(error)) => Err(of_file(file, error)),
        Err(Trouble::Output(error)) => Err(of_output(error)),
    }
}

fn of_file(file: &OsStr, error: io::Error) -> String {
    format!("{}: {error}", file.to_string_lossy())
}

fn of_output(error: io::Error) -> String {
    format!("standard output: {error}")
}

/// A file to be read; `-` is standard input.
fn open(file: &OsStr) -> Result<Box<dyn BufRead>, String> {
    if file == "-" {
        return Ok(Box::new(io::stdin().lock()));
    }
    let opened = File::open(file).map_err(|error| of_file(file, error))?;
    Ok(Box::new(BufReader::new(opened)))
}

/// Prints to standard output; that nobody reads it any more is no fault.
fn print(text: &str) -> Ended {
    let mut output = io::stdout().lock();
    match output.write_all(text.as_bytes()).and_then(|()| output.flush()) {
        Err(error) if error.kind() != ErrorKind::BrokenPipe => Err(of_output(error)),
        _ => Ok(status::DONE),
    }
}
