//! Which answer of which call a run reached, which answers each call has, how many messages calls left out, which Inits
//! were written, why an image was not moved to another version, and what messages did by their FEC.

use crate::by_fec::{self, ByFec};
use crate::calls::{Call, Observed, Returned};
use crate::stored::{Stored, Version};
use cabinet::phase;
use std::collections::BTreeMap;
use std::fmt;

/// Every call with every answer it can give. Of the calls that return a bare number 1 stands for "refused", of
/// request_at for "no Request", of prefix_at for "no prefix".
pub const ANSWERS: &[(&str, &[u32])] = &[
    ("format", &[0, 12]),
    ("restore", &[0, 10, 11, 12]),
    ("open", &[0, 1, 9, 10, 11, 12]),
    ("init_received", &[0, 1, 10, 11, 12, 22, 23, 34, 35]),
    ("connection_failed", &[0, 1, 10, 11, 12]),
    ("time_passed", &[0, 1, 10, 11, 12]),
    ("submit", &[0, 1, 3, 4, 5, 6, 7, 10, 11, 12, 13, 14, 15]),
    ("send_next", &[0, 1, 8, 9, 10, 11, 12]),
    ("keepalive", &[0, 1, 9, 10, 11, 12]),
    ("receive", &[0, 1, 10, 11, 12, 20, 21, 22, 30, 31, 32, 33, 34, 36]),
    ("pdu_open", &[0, 4]),
    ("pdu_message", &[0, 4]),
    ("message_read", &[0, 22]),
    ("distance", &[0, 2]),
    ("successor", &[0]),
    ("next_number", &[0, 20, 30]),
    ("lesser_timeout", &[0]),
    ("block_check", &[0, 1]),
    ("label", &[0, 1]),
    ("request_at", &[0, 1]),
    ("prefix_at", &[0, 1]),
    ("summarize", &[0, 10, 11, 12]),
    ("labels", &[0, 9, 10, 11, 12]),
    ("held", &[0, 8, 10, 11, 12]),
    ("extend", &[0, 12]),
    ("convert_forward", &[0, 9, 10, 11, 12, 16]),
    ("convert_back", &[0, 9, 10, 11, 12, 16]),
];

/// The lengths of our Inits: fresh and resuming, in the draft's form and in the published one.
pub const INITS: [(bool, u32); 4] = [(false, 34), (false, 42), (true, 42), (true, 50)];

/// Why a sound image cannot be moved to the other version.
#[derive(Clone, Copy, Debug, PartialEq, Eq, PartialOrd, Ord)]
pub enum Unmovable {
    /// Version 1: the 120th word is in use.
    LastWord,
    /// Version 2: milliseconds that are no whole seconds.
    PartOfSecond,
    /// Version 2: more than 65,535 seconds.
    TooLong,
}

pub const UNMOVABLE: [Unmovable; 3] = [Unmovable::LastWord, Unmovable::PartOfSecond, Unmovable::TooLong];

impl Unmovable {
    /// Why an image that was answered with 16 is not moved.
    fn of(image: &[u8]) -> Self {
        let stored = Stored::read(image);
        match stored.version {
            Version::One => Unmovable::LastWord,
            Version::Two if !stored.timeout.is_multiple_of(1_000) => Unmovable::PartOfSecond,
            Version::Two => Unmovable::TooLong,
        }
    }
}

/// The calls that tell how many messages were left out.
const LEAVE_OUT: [&str; 3] = ["receive", "send_next", "next_number"];

/// How often each answer of each call came, each number of messages left out, each Init, and each reason of 16.
#[derive(Clone, Debug, Default)]
pub struct Coverage {
    answers: BTreeMap<(&'static str, u32), u64>,
    left_out: BTreeMap<(&'static str, u32), u64>,
    inits: BTreeMap<(bool, u32), u64>,
    unmovable: BTreeMap<Unmovable, u64>,
    by_fec: BTreeMap<ByFec, u64>,
}

impl Coverage {
    /// Notes what was seen of a call on an image.
    pub fn note(&mut self, image: &[u8], call: &Call, seen: &Observed) {
        let returned = &seen.returned;
        let (name, answer) = (call.name(), returned.answer());
        if let Call::Receive { session, msg } = call {
            let judged = session.phase == phase::UP_FT && matches!(answer, 0 | 21 | 33);
            let did = judged.then(|| by_fec::of(image, msg, seen)).flatten();
            did.into_iter().for_each(|did| *self.by_fec.entry(did).or_default() += 1);
        }
        *self.answers.entry((name, answer)).or_default() += 1;
        match (call, returned) {
            (_, Returned::Converted(_)) if answer == 16 => {
                *self.unmovable.entry(Unmovable::of(image)).or_default() += 1;
            }
            (Call::Open { opening, .. }, Returned::Outcome(outcome)) if answer == 0 => {
                *self.inits.entry((opening.published, outcome.length)).or_default() += 1;
            }
            _ if answer == 0 => *self.left_out.entry((name, returned.left_out())).or_default() += 1,
            _ => {}
        }
    }

    pub fn count(&self, call: &'static str, answer: u32) -> u64 {
        self.answers.get(&(call, answer)).copied().unwrap_or(0)
    }

    /// How often a call was done with so many messages left out.
    pub fn left_out(&self, call: &'static str, left_out: u32) -> u64 {
        self.left_out.get(&(call, left_out)).copied().unwrap_or(0)
    }

    /// How often an Init of this form and length was written.
    pub fn inits(&self, init: (bool, u32)) -> u64 {
        self.inits.get(&init).copied().unwrap_or(0)
    }

    /// How often an image was not moved for this reason.
    pub fn unmovable(&self, why: Unmovable) -> u64 {
        self.unmovable.get(&why).copied().unwrap_or(0)
    }

    /// How often a received message did this by its FEC.
    pub fn by_fec(&self, did: ByFec) -> u64 {
        self.by_fec.get(&did).copied().unwrap_or(0)
    }

    pub fn total(&self) -> u64 {
        self.answers.values().sum()
    }

    /// The answers that never came, with their calls.
    pub fn missing(&self) -> Vec<(&'static str, u32)> {
        let all = ANSWERS.iter().flat_map(|(call, answers)| answers.iter().map(move |answer| (*call, *answer)));
        all.filter(|(call, answer)| self.count(call, *answer) == 0).collect()
    }

    /// The answers that no call of that name has.
    pub fn unexpected(&self) -> Vec<(&'static str, u32)> {
        let has =
            |call: &str, answer: u32| ANSWERS.iter().any(|(name, answers)| *name == call && answers.contains(&answer));
        self.answers.keys().copied().filter(|(call, answer)| !has(call, *answer)).collect()
    }
}

impl fmt::Display for Coverage {
    fn fmt(&self, f: &mut fmt::Formatter) -> fmt::Result {
        for (call, answers) in ANSWERS {
            write!(f, "{call:>18}")?;
            for answer in *answers {
                write!(f, "  {answer}: {}", self.count(call, *answer))?;
            }
            writeln!(f)?;
        }
        for call in LEAVE_OUT {
            let some: u64 = (1..=64).map(|left_out| self.left_out(call, left_out)).sum();
            let most = self.left_out.keys().filter(|(name, _)| *name == call).map(|(_, left_out)| left_out).max();
            writeln!(f, "{call:>18}  left out: {some} times, at most {}", most.unwrap_or(&0))?;
        }
        let inits = INITS.map(|init| (init.1, self.inits(init)));
        let [fresh, resuming, published, published_resuming] =
            inits.map(|(length, count)| format!("{length}: {count}"));
        writeln!(f, "{:>18}  {fresh}  {resuming}  published {published}  {published_resuming}", "Inits by length")?;
        let [last_word, part, long] = UNMOVABLE.map(|why| self.unmovable(why));
        writeln!(f, "{:>18}  last word {last_word}, part of a second {part}, too long {long}", "not moved")?;
        for (did, count) in &self.by_fec {
            writeln!(f, "{:>18}  {did:?}: {count}", "by FEC")?;
        }
        write!(f, "{:>18}  {} calls", "in all", self.total())
    }
}
