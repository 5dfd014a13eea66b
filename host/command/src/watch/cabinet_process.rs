//! One cabinet's process: its owner's loop around the session, the store and the connection.

use super::ask::Asks;
use super::clock::Clock;
use super::event::{Event, Kind};
use super::journal::Journal;
use super::left_out::LeftOut;
use super::link::{Link, Way};
use super::plan::{self, Offers, Plan, View};
use super::{supervisor, Setting, NAMES};
use crate::holdings;
use cabinet::{phase, Cabinet, Outcome, Session, Summary};
use ldp_ft::Library;
use std::io::{self, BufRead, Write};
use std::path::PathBuf;
use std::sync::mpsc::{channel, Receiver, TryRecvError};
use std::time::{Duration, Instant};
use support::store::Store;
use support::wire::{self, types};

/// The owner submits at this pace, so that there is something to see.
const PACE: Duration = Duration::from_millis(30);
/// A cabinet that had no labels to give has some again after so many KeepAlives of a peer that has nothing more to say:
/// by then it has asked in vain.
const RECOVERY: u32 = 5;
/// The connection is cut when the next message is about to leave, or after this time.
const CUT_LIMIT: Duration = Duration::from_millis(100);
const REPORT: Duration = Duration::from_millis(20);
/// Room for a message with its FT TLVs.
pub const ROOM: usize = 500;

/// Runs a cabinet until it is told to stop, or its time is over.
pub fn run(name: &str, setting: &Setting) -> Result<(), String> {
    let orders = orders();
    let mut process = Process::start(name, setting).map_err(|error| format!("{name}: {error}"))?;
    let end = Instant::now() + supervisor::LIMIT;
    while Instant::now() < end {
        match orders.try_recv() {
            Ok(order) if order == "cut" => process.cut_by = Some(Instant::now() + CUT_LIMIT),
            Ok(_) => {
                process.say(Kind::Ends, "ends");
                // Its connection stays until the supervisor has heard both, so that neither finds it broken.
                orders.iter().for_each(drop);
                return Ok(());
            }
            Err(TryRecvError::Disconnected) => return Ok(()),
            Err(TryRecvError::Empty) => {}
        }
        process.turn().map_err(|error| format!("{name}: {error}"))?;
    }
    Err(format!("{name}: no end in sight"))
}

/// The supervisor's orders, line by line; the channel closes when the supervisor is gone.
fn orders() -> Receiver<String> {
    let (sender, receiver) = channel();
    std::thread::spawn(move || {
        let lines = io::stdin().lock().lines();
        lines.map_while(Result::ok).take_while(|line| sender.send(line.clone()).is_ok()).for_each(drop);
    });
    receiver
}

/// A cabinet's process and all it works with.
pub struct Process {
    pub end: usize,
    pub clock: Clock,
    pub lsr: u32,
    pub port_file: PathBuf,
    pub way: Way,
    pub link: Option<Link>,
    pub store: Store,
    pub image: Vec<u8>,
    pub session: Session,
    pub accepted: Journal,
    pub secured: Journal,
    pub left_out: LeftOut,
    pub plan: Plan,
    pub on_demand: bool,
    /// Its Init is in the published form.
    pub published: bool,
    /// KeepAlives that acknowledged nothing new, of a peer that is told of no labels and has acknowledged all.
    pub idle_keepalives: u32,
    /// All that was on its way when the last connection broke is sent again or left out.
    pub caught_up: bool,
    pub broken_at: Instant,
    pub next_try: Instant,
    pub next_submission: Instant,
    pub next_keepalive: Instant,
    pub acknowledges: bool,
    /// When the connection is to be cut, if nothing is sent before that.
    pub cut_by: Option<Instant>,
    pub reported: String,
    pub next_report: Instant,
}

impl Process {
    /// Begins with the session in the store, or with a new one.
    fn start(name: &str, setting: &Setting) -> io::Result<Self> {
        let is_new = !setting.file(name, "store").exists();
        let (store, image, session) = stored_session(name, setting, is_new)?;
        let port_file = setting.port_file();
        let summary = Library.summarize(&image);
        let now = Instant::now();
        let process = Process {
            lsr: if name == "north" { 0x0A00_0001 } else { 0x0A00_0002 },
            way: if name == "north" { Way::listen(&port_file)? } else { Way::Connect },
            port_file,
            link: None,
            store,
            session,
            accepted: Journal::open(&setting.file(name, "accepted"), summary.released + summary.held)?,
            secured: Journal::open(&setting.file(name, "secured"), summary.secured)?,
            left_out: LeftOut::open(&setting.file(name, "left-out"))?,
            plan: plan_of(name, setting),
            on_demand: setting.on_demand,
            published: setting.forms.is_published(name),
            idle_keepalives: 0,
            caught_up: false,
            image,
            broken_at: now,
            next_try: now,
            next_submission: now,
            next_keepalive: now,
            acknowledges: false,
            cut_by: None,
            reported: String::new(),
            next_report: now,
            clock: setting.clock,
            end: usize::from(name == NAMES[1]),
        };
        let begins = if is_new { "starts with a new store" } else { "restored from its store" };
        process.say(Kind::Starts, &format!("{begins}: {}", process.standing()));
        Ok(process)
    }

    /// Tells what it does, with its own time.
    pub fn say(&self, kind: Kind, what: &str) {
        print(&Event::new(self.clock.now(), kind, self.end, what).line());
    }

    /// How many messages it holds, and has secured.
    pub fn standing(&self) -> String {
        format!("{} held, {} secured", self.summary().held, self.secured.messages.len())
    }

    pub fn summary(&self) -> Summary {
        Library.summarize(&self.image)
    }

    pub fn listed(&self, code: u32) -> Vec<u32> {
        let listed = holdings::labels(&self.image).into_iter().filter(|listed| listed.code == code);
        listed.map(|listed| listed.label).collect()
    }

    /// Hands what the owner has before it to a decision.
    fn decide<T>(&self, decision: impl FnOnce(&Plan, &View) -> T) -> T {
        decision(
            &self.plan,
            &View {
                accepted: &self.accepted.messages,
                secured: &self.secured.messages,
                given: &self.listed(1),
                asked_back: &self.listed(4),
                open: &holdings::requests(&self.image),
                sent: &self.requests_sent(),
                is_up: self.session.phase == phase::UP_FT,
                is_stopping: self.summary().is_stopping(),
                has_recovered: self.idle_keepalives >= RECOVERY,
            },
        )
    }

    /// The IDs of the Requests that were sent and are held, for they are not acknowledged.
    fn requests_sent(&self) -> Vec<u32> {
        let sent = holdings::held(&self.image).into_iter().filter(|held| held.number.is_some());
        let requests = sent.filter(|held| wire::message_type(&held.message) == types::REQUEST);
        requests.map(|held| wire::message_id(&held.message)).collect()
    }

    /// Stores what a call names: slot, the further blocks, the owner's own record, then block 0. Output may leave after that.
    pub fn keep(&mut self, outcome: &Outcome, record: Option<(&[u8], Record)>) -> io::Result<()> {
        self.store.write_slot(&self.image, outcome)?;
        self.store.write_further(&self.image, outcome)?;
        match record {
            Some((msg, Record::Accepted)) => self.accepted.add(self.accepted.last + 1, msg)?,
            Some((msg, Record::Secured(number))) => self.secured.add(number, msg)?,
            None => {}
        }
        self.store.write_block0(&self.image, outcome)?;
        self.session = outcome.session;
        Ok(())
    }

    /// One turn of the owner's loop.
    fn turn(&mut self) -> io::Result<()> {
        let now = Instant::now();
        if self.link.is_none() {
            self.connect(now)?;
        }
        self.submit(now)?;
        if self.cut_by.is_some_and(|by| now >= by) {
            self.cut();
        }
        if self.link.is_some() && self.exchange(now).is_err() {
            self.lose_connection()?;
        }
        self.report(now);
        Ok(())
    }

    /// Submits the next message of the plan.
    fn submit(&mut self, now: Instant) -> io::Result<()> {
        if now < self.next_submission || self.summary().kept == 0 {
            return Ok(());
        }
        self.next_submission = now + PACE;
        let Some(msg) = self.decide(Plan::next) else { return Ok(()) };
        let outcome = Library.submit(&mut self.image, self.session, &msg);
        if outcome.answer == 0 {
            self.keep(&outcome, Some((&msg, Record::Accepted)))?;
            self.say(Kind::Works, &format!("accepts {} ({} held)", plan::in_words(&msg), self.summary().held));
        } else {
            self.say(Kind::Works, &format!("{} refused with {}", plan::in_words(&msg), outcome.answer));
        }
        Ok(())
    }

    /// Tells the supervisor where things stand, whenever that changes, and often enough that it knows up to when it has
    /// heard all.
    fn report(&mut self, now: Instant) {
        let held = self.summary().held;
        let done = held == 0 && self.decide(Plan::is_done);
        let (accepted, secured) = (self.accepted.messages.len(), self.secured.messages.len());
        let left_out = self.left_out.numbers.len();
        let report = format!("{accepted} {left_out} {held} {secured} {}", u32::from(done));
        if report != self.reported || now >= self.next_report {
            print(&format!("#{} {} {report}", self.end, self.clock.now().as_micros()));
            (self.reported, self.next_report) = (report, now + REPORT);
        }
    }
}

/// Restores the session from the store, or makes a new one.
fn stored_session(name: &str, setting: &Setting, is_new: bool) -> io::Result<(Store, Vec<u8>, Session)> {
    let file = setting.file(name, "store");
    let store = if is_new { Store::create(&file)? } else { Store::open(&file)? };
    let mut image = store.read()?;
    let outcome = if is_new { Library.format(&mut image) } else { Library.restore(&mut image) };
    if outcome.answer != 0 {
        return Err(io::Error::other(format!("image refused {} block {}", outcome.answer, outcome.block)));
    }
    store.write_all(&image)?;
    Ok((store, image, outcome.session))
}

/// A line for the supervisor. Once that is gone nobody reads it, and the process ends, for its orders end too.
fn print(line: &str) {
    let _ = writeln!(io::stdout(), "{line}");
}

/// North gives labels from 16 on, south from 216 on; who asks does so for the other's.
fn plan_of(name: &str, setting: &Setting) -> Plan {
    let (own, others) = if name == "north" { (16, 216) } else { (216, 16) };
    if setting.on_demand {
        Plan::Asks(Asks::new(others, setting.labels))
    } else {
        Plan::Offers(Offers::new(own, setting.labels))
    }
}

/// Which of the owner's records a message goes to; one that was secured with its number.
pub enum Record {
    Accepted,
    Secured(u32),
}
