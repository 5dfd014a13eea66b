//! What the crash trials did: steps, cuts by call and store point, breaks, messages.

use cabinet::{Outcome, FURTHER};
use std::collections::BTreeMap;
use std::fmt;

/// How far a call came before the power was cut, in the order in which it is stored.
#[derive(Clone, Copy, Debug, PartialEq, Eq, PartialOrd, Ord)]
pub enum Cut {
    /// Nothing of the call was stored.
    Nothing,
    /// Its slot was stored, no other block was.
    Slot,
    /// It was stored through this further block; block 0 was not.
    Further(usize),
    /// Everything was stored; the output did not leave.
    NoOutput,
    /// All was stored and the output left.
    All,
}

impl Cut {
    /// The cut just behind a block that is stored.
    pub fn behind(block: usize) -> Self {
        match block {
            0 => Cut::NoOutput,
            block if FURTHER.contains(&block) => Cut::Further(block),
            _ => Cut::Slot,
        }
    }

    /// The cuts that a call may have, by what it names.
    pub fn of(outcome: &Outcome) -> Vec<Self> {
        let before_block0 = outcome.stores().filter(|block| *block != 0).map(Cut::behind);
        [Cut::Nothing].into_iter().chain(before_block0).chain([Cut::NoOutput, Cut::All]).collect()
    }
}

/// Every cut.
pub fn cuts() -> impl Iterator<Item = Cut> {
    let before_block0 = [Cut::Nothing, Cut::Slot].into_iter().chain(FURTHER.map(Cut::Further));
    before_block0.chain([Cut::NoOutput, Cut::All])
}

/// Counts over all worlds of a run.
#[derive(Clone, Debug, Default)]
pub struct Tally {
    pub worlds: u64,
    pub steps: u64,
    pub cuts: BTreeMap<(&'static str, Cut), u64>,
    pub breaks: u64,
    pub restarts: u64,
    pub resumed: u64,
    /// Inits taken by an end that had written its own in the other form.
    pub mixed: u64,
    /// Stores moved to version 1, forward to version 2, and those that version 1 has no room for.
    pub moved_back: u64,
    pub moved_forward: u64,
    pub unmovable: u64,
    pub accepted: u64,
    pub secured: u64,
    /// Requests opened, and ended by their Abort or by an answer.
    pub asked: u64,
    pub aborted: u64,
    pub answered: u64,
    /// Requests refused because they are stopped.
    pub stopped: u64,
    pub sent: u64,
    /// Messages that were left out, each once, and how often Sends passed over them.
    pub left_out: u64,
    pub passed_over: u64,
    /// Labels that a Mapping moved to another word.
    pub moved: u64,
    pub full: u64,
    pub most_held: usize,
    pub drained: u64,
    /// Labels that both ends list alike once everything has arrived: given and in use, withdrawn and asked back.
    pub given: u64,
    pub withdrawn: u64,
}

impl Tally {
    pub fn note_cut(&mut self, call: &'static str, cut: Cut) {
        *self.cuts.entry((call, cut)).or_default() += 1;
    }

    pub fn cuts_in(&self, call: &'static str, cut: Cut) -> u64 {
        self.cuts.get(&(call, cut)).copied().unwrap_or(0)
    }

    /// The cuts at a point, in whatever call.
    pub fn cuts_at(&self, cut: Cut) -> u64 {
        self.cuts.iter().filter(|((_, at), _)| *at == cut).map(|(_, count)| count).sum()
    }

    pub fn all_cuts(&self) -> u64 {
        self.cuts.values().sum()
    }
}

impl fmt::Display for Tally {
    fn fmt(&self, f: &mut fmt::Formatter) -> fmt::Result {
        let heads: String = cuts().map(|cut| format!("{:>12}", format!("{cut:?}"))).collect();
        writeln!(f, "{:>18}{heads}", "cut in, at")?;
        let calls: std::collections::BTreeSet<&str> = self.cuts.keys().map(|(call, _)| *call).collect();
        for call in calls {
            let counts: String = cuts().map(|cut| format!("{:>12}", self.cuts_in(call, cut))).collect();
            writeln!(f, "{call:>18}{counts}")?;
        }
        writeln!(f, "{} worlds, {} steps, {} cuts", self.worlds, self.steps, self.all_cuts())?;
        writeln!(f, "{} breaks, {} restarts, {} resumed", self.breaks, self.restarts, self.resumed)?;
        let Tally { mixed, moved_back, moved_forward, unmovable, .. } = self;
        writeln!(f, "{mixed} Inits of another form than the own")?;
        writeln!(f, "{moved_back} moved back, {moved_forward} forward, {unmovable} not to be moved")?;
        writeln!(f, "{} accepted, {} sent, {} secured", self.accepted, self.sent, self.secured)?;
        let Tally { asked, aborted, answered, stopped, .. } = self;
        writeln!(f, "{asked} Requests, {aborted} aborted, {answered} answered, {stopped} refused while stopped")?;
        writeln!(f, "{} left out, passed over {} times", self.left_out, self.passed_over)?;
        writeln!(f, "{} labels moved to another word", self.moved)?;
        writeln!(f, "at the end {} labels given, {} withdrawn and asked back", self.given, self.withdrawn)?;
        write!(f, "{} refused at 64 held, at most {} held, {} worlds drained", self.full, self.most_held, self.drained)
    }
}
