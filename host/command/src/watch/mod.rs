//! `ldp-ft watch`: two cabinets in two processes over TCP on loopback, each with its store in a file.
//!
//! Each cabinet offers its labels to the other, withdraws every third of them, and gives back what it is asked for. On
//! demand it asks for the other's labels instead, gives up every fifth Request, and each that a break catches on its
//! way, turns one down, and gives a label only in answer. Meanwhile the connection is cut and processes are killed. At
//! the end stand both label lists, the accounts of every message, and a verdict.

mod accounts;
mod ask;
mod cabinet_process;
mod cabinets;
mod clock;
mod connection;
mod event;
mod exchange;
mod journal;
mod left_out;
mod link;
mod log;
mod plan;
mod signals;
mod story;
mod supervisor;
mod telling;
mod verdict;

use crate::{status, Ended};
use clock::Clock;
use std::fs;
use std::io::{self, ErrorKind};
use std::path::{Path, PathBuf};
use story::Story;
use support::options::{Known, Options};
use support::store::Directory;
use telling::Teller;

/// The label list has 119 words for both directions together.
const MOST_LABELS: u64 = 59;
const NAMES: [&str; 2] = ["north", "south"];

/// What `watch` takes.
pub const KNOWN: Known = Known {
    flags: &["on-demand", "all", "json"],
    values: &["labels", "cut-every", "kill-every", "form", "keep"],
    files: 0,
};

/// The command by which the supervisor starts a cabinet's process; not one for people. Its file is the pair's
/// directory.
pub const CABINET: &str = "cabinet";
pub const KNOWN_CABINET: Known =
    Known { flags: &["on-demand"], values: &["name", "labels", "since", "form"], files: 1 };

/// What the supervisor and both processes are told.
#[derive(Clone, Debug)]
struct Setting {
    directory: PathBuf,
    clock: Clock,
    labels: u32,
    on_demand: bool,
    forms: Forms,
}

/// In which form of FT Session the two cabinets write their Inits.
#[derive(Clone, Copy, Debug)]
enum Forms {
    Draft,
    Published,
    /// North the draft's, south the published one.
    Mixed,
}

impl Forms {
    fn of(word: &str) -> Result<Self, String> {
        let known = [Forms::Draft, Forms::Published, Forms::Mixed].into_iter().find(|forms| forms.word() == word);
        known.ok_or_else(|| format!("--form takes draft, published or mixed, not {word:?}"))
    }

    /// True where a cabinet writes the published form.
    fn is_published(self, name: &str) -> bool {
        match self {
            Forms::Draft => false,
            Forms::Published => true,
            Forms::Mixed => name == NAMES[1],
        }
    }

    fn word(self) -> &'static str {
        match self {
            Forms::Draft => "draft",
            Forms::Published => "published",
            Forms::Mixed => "mixed",
        }
    }
}

impl Setting {
    /// Where a cabinet keeps a file.
    fn file(&self, name: &str, what: &str) -> PathBuf {
        self.directory.join(format!("{name}.{what}"))
    }

    /// Where north writes down at which address it listens.
    fn port_file(&self) -> PathBuf {
        self.directory.join("port")
    }
}

/// After how many messages that arrived the pair is disturbed; 0 for never.
#[derive(Clone, Copy, Debug)]
struct Disturbances {
    cut_every: u64,
    kill_every: u64,
}

fn setting(options: &Options, directory: &Path, clock: Clock) -> Result<Setting, String> {
    Ok(Setting {
        directory: directory.to_path_buf(),
        clock,
        labels: options.number("labels", 40, 1..=MOST_LABELS)? as u32,
        on_demand: options.is_given("on-demand"),
        forms: Forms::of(options.word("form").unwrap_or("draft"))?,
    })
}

/// Runs the pair to its end, and says whether its accounts are in order. Its files go away with it, also where a signal
/// ends it, unless they are to be kept.
pub fn run(options: &Options) -> Ended {
    let disturbances = Disturbances {
        cut_every: options.number("cut-every", 20, 0..=u64::MAX)?,
        kill_every: options.number("kill-every", 35, 0..=u64::MAX)?,
    };
    let teller = teller(options)?;
    let mut setting = setting(options, Path::new(""), Clock::start())?;
    signals::take();
    let Some(kept) = options.word("keep") else {
        let directory = Directory::create("watch").map_err(|error| error.to_string())?;
        setting.directory = directory.path().to_path_buf();
        return supervisor::run(setting, disturbances, teller);
    };
    setting.directory = empty_directory(kept).map_err(|error| format!("{kept}: {error}"))?;
    let port_file = setting.port_file();
    let ended = supervisor::run(setting, disturbances, teller);
    // A port that nobody listens on any more; where it cannot be removed the stores are none the worse.
    let _ = fs::remove_file(port_file);
    ended
}

fn teller(options: &Options) -> Result<Teller, String> {
    match (options.is_given("all"), options.is_given("json")) {
        (false, false) => Ok(Teller::Story(Story::default())),
        (true, false) => Ok(Teller::All),
        (false, true) => Ok(Teller::Json),
        (true, true) => Err("--all tells every line, --json only the result: one of them".to_string()),
    }
}

/// A directory that is made, or is there and has nothing in it: a store that is there would be taken up.
fn empty_directory(path: &str) -> io::Result<PathBuf> {
    match fs::create_dir(path) {
        Err(error) if error.kind() != ErrorKind::AlreadyExists => return Err(error),
        _ => {}
    }
    match fs::read_dir(path)?.next() {
        Some(_) => Err(io::Error::other("is not empty; the stores need a directory of their own")),
        None => fs::canonicalize(path),
    }
}

/// Runs one cabinet of a pair.
pub fn run_cabinet(options: &Options) -> Ended {
    let name = options.word("name").and_then(|name| NAMES.into_iter().find(|known| *known == name));
    let name = name.ok_or("a cabinet is north or south")?;
    let clock = Clock::since(options.number("since", 0, 0..=u64::MAX)?);
    cabinet_process::run(name, &setting(options, Path::new(&options.files[0]), clock)?)?;
    Ok(status::DONE)
}
