//! One end: a cabinet, its memory, its store, and the history that the trial keeps of it.

use super::index::{self, Entries};
use super::requests;
use super::tally::Cut;
use crate::calls::{invoke, Call, Lent, Returned};
use crate::store::Store;
use crate::stored::Stored;
use cabinet::{phase, Cabinet, Outcome, Session};
use std::collections::BTreeSet;
use std::io;
use std::path::Path;

const ROOM: usize = 500;

/// One end of the connection.
pub struct End<'a> {
    pub cabinet: &'a dyn Cabinet,
    pub store: Store,
    /// The image in memory; a power cut loses it.
    pub image: Vec<u8>,
    pub session: Session,
    /// Its last Init was in the published form.
    pub published: bool,
    /// Messages accepted to send, as submitted, since the fresh start.
    pub accepted: Vec<Vec<u8>>,
    /// The places among them of those that a Send has passed over.
    pub left_out: BTreeSet<usize>,
    /// Messages secured from the other end, without FT TLVs, since the fresh start.
    pub secured: Vec<Vec<u8>>,
    /// The IDs of our Requests that are neither aborted nor answered, by that history.
    pub open: BTreeSet<u32>,
    /// The entries of the labels that we gave and of those that we use, by that history.
    pub given: Entries,
    pub used: Entries,
    /// The number that released and issued had at the start, and the other end's secured.
    pub base: u32,
}

/// What a call did at an end, before anything is stored.
pub struct Done {
    pub outcome: Outcome,
    pub output: Vec<u8>,
}

impl<'a> End<'a> {
    pub fn new(cabinet: &'a dyn Cabinet, path: &Path) -> io::Result<Self> {
        let store = Store::create(path)?;
        let image = store.read()?;
        let mut end = End {
            cabinet,
            store,
            image,
            session: Session::default(),
            published: false,
            accepted: Vec::new(),
            left_out: BTreeSet::new(),
            secured: Vec::new(),
            open: BTreeSet::new(),
            given: Entries::new(),
            used: Entries::new(),
            base: 0,
        };
        end.format()?;
        Ok(end)
    }

    /// Forgets the history: a session begins afresh.
    pub fn begin(&mut self) {
        (self.accepted, self.secured) = (Vec::new(), Vec::new());
        (self.left_out, self.open) = (BTreeSet::new(), BTreeSet::new());
        (self.given, self.used) = (Entries::new(), Entries::new());
        self.base = 0;
    }

    /// Notes a message that was accepted for sending.
    pub fn note_accepted(&mut self, msg: Vec<u8>) {
        requests::accepted(&mut self.open, &msg);
        index::note(&mut self.given, &msg);
        self.accepted.push(msg);
    }

    /// The first so many of the accepted, without those left out.
    pub fn due(&self, so_many: usize) -> impl Iterator<Item = &Vec<u8>> {
        let places = self.accepted.iter().take(so_many).enumerate();
        places.filter(|(place, _)| !self.left_out.contains(place)).map(|(_, msg)| msg)
    }

    /// Notes a message that was secured from the other end.
    pub fn note_secured(&mut self, msg: Vec<u8>) {
        requests::secured(&mut self.open, &msg);
        index::note(&mut self.used, &msg);
        self.secured.push(msg);
    }

    /// Makes a call on the memory; nothing is stored yet.
    pub fn call(&mut self, call: &Call) -> Done {
        let mut output = vec![0; ROOM];
        let input = call.input().to_vec();
        let lent = Lent { image: &mut self.image, input: &input, out: &mut output, words: &mut [] };
        let returned = invoke(self.cabinet, call, lent);
        let outcome = match returned {
            Returned::Outcome(outcome) => outcome,
            _ => Outcome::default(),
        };
        self.session = outcome.session;
        output.truncate(outcome.length as usize);
        Done { outcome, output }
    }

    /// Stores what a call names, in its order, as far as it comes before the power is cut.
    pub fn store_until(&self, outcome: &Outcome, cut: Cut) -> io::Result<()> {
        let mut stored = outcome.stores().filter(|block| Cut::behind(*block) <= cut);
        stored.try_for_each(|block| self.store.write_block(&self.image, block))
    }

    /// Loses the memory and restores the session from the store; nothing of it is stored yet.
    pub fn power_up(&mut self) -> io::Result<Outcome> {
        self.image = self.store.read()?;
        Ok(self.call(&Call::Restore).outcome)
    }

    /// A new image in memory and store.
    pub fn format(&mut self) -> io::Result<()> {
        self.call(&Call::Format);
        self.store.write_all(&self.image)
    }

    /// Replaces what is stored, as if the session had run for long before.
    pub fn rewrite(&mut self, change: impl FnOnce(&mut Stored)) -> io::Result<()> {
        let mut stored = Stored::read(&self.image);
        change(&mut stored);
        self.image = stored.image(0);
        self.store.write_all(&self.image)
    }

    pub fn is_down(&self) -> bool {
        matches!(self.session.phase, phase::IDLE | phase::FAILED)
    }

    pub fn is_up(&self) -> bool {
        self.session.phase == phase::UP_FT
    }
}
