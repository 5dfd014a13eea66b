//! A world of two ends and one connection at a time: its start, its steps, its end, and how a call in it may be cut.

use super::demand::{check_drained, check_undone, Stores};
use super::end::{Done, End};
use super::habits::Habits;
use super::require;
use super::tally::{Cut, Tally};
use crate::calls::Call;
use crate::entries::entry;
use crate::random::Random;
use crate::store::Directory;
use crate::stored::{u16_at, word, Stored};
use cabinet::{Cabinet, Outcome, FURTHER, INDEX_BLOCKS, REQUEST_BLOCK};
use std::collections::VecDeque;
use std::io;

const STEPS: usize = 700;
const DRAIN_STEPS: usize = 4_000;
/// Numbers that both directions start from: afresh, or as after a long run, just before wrap-around.
const BASES: [u32; 5] = [0, 0, 0, 0xFFFF_FFC8, 0xFFFF_FFFF];
/// The first of the labels that no owner speaks of.
const SETTLED: u32 = 1_000;

/// Runs worlds with the cabinets given until there have been so many cuts; the seed decides everything.
pub fn run(cabinets: [&dyn Cabinet; 2], seed: u64, cuts: u64, tally: &mut Tally) -> Result<(), String> {
    worlds(cabinets, seed, Habits::any, |tally| tally.all_cuts() < cuts, tally)
}

/// Runs worlds of owners that ask for labels, until so many cuts fell between block 65 and block 0.
pub fn run_asking(cabinets: [&dyn Cabinet; 2], seed: u64, cuts: u64, tally: &mut Tally) -> Result<(), String> {
    worlds(cabinets, seed, Habits::asking, |tally| tally.cuts_at(Cut::Further(REQUEST_BLOCK)) < cuts, tally)
}

/// Runs worlds of owners that offer many labels, until so many cuts fell between each block of the index and block 0.
pub fn run_indexing(cabinets: [&dyn Cabinet; 2], seed: u64, cuts: u64, tally: &mut Tally) -> Result<(), String> {
    let few = |tally: &Tally| INDEX_BLOCKS.into_iter().any(|block| tally.cuts_at(Cut::Further(block)) < cuts);
    worlds(cabinets, seed, Habits::indexing, few, tally)
}

/// Runs worlds of owners that offer labels anew, until so many were moved to another word.
pub fn run_renewing(cabinets: [&dyn Cabinet; 2], seed: u64, count: u64, tally: &mut Tally) -> Result<(), String> {
    worlds(cabinets, seed, Habits::renewing, |tally| tally.moved < count, tally)
}

/// Runs worlds of owners that abort what they have asked for, until so many Requests were left out.
pub fn run_leaving_out(cabinets: [&dyn Cabinet; 2], seed: u64, count: u64, tally: &mut Tally) -> Result<(), String> {
    worlds(cabinets, seed, Habits::aborting, |tally| tally.left_out < count, tally)
}

/// Runs worlds of owners that move their stores to version 1 and forward again, until so many were moved each way.
pub fn run_converting(cabinets: [&dyn Cabinet; 2], seed: u64, count: u64, tally: &mut Tally) -> Result<(), String> {
    worlds(cabinets, seed, Habits::moving, |tally| tally.moved_forward < count, tally)
}

fn worlds(
    cabinets: [&dyn Cabinet; 2],
    seed: u64,
    habits: fn(&mut Random) -> Habits,
    goes_on: impl Fn(&Tally) -> bool,
    tally: &mut Tally,
) -> Result<(), String> {
    let directory = Directory::create("crash").map_err(text)?;
    let mut random = Random::new(seed);
    let [first, second] = cabinets;
    let end = |cabinet, name: &str| End::new(cabinet, &directory.file(name)).map_err(text);
    let mut ends = [end(first, "first")?, end(second, "second")?];
    while goes_on(tally) {
        let world = tally.worlds;
        let mut world_run = World::new(ends, Random::new(random.u64()), habits, tally);
        world_run.live().map_err(|what| format!("seed {seed}, world {world}: {what}"))?;
        ends = world_run.ends;
    }
    Ok(())
}

/// Lists labels with their entries under a code, in the first words that are free.
fn settle(stored: &mut Stored, code: u32, settled: &[(u32, u64)]) {
    let free: Vec<usize> = (0..stored.labels.len()).filter(|place| stored.labels[*place] == 0).collect();
    for (place, (label, entry)) in free.into_iter().zip(settled) {
        (stored.labels[place], stored.entries[place]) = (word(*label, code), *entry);
    }
}

pub fn text(error: io::Error) -> String {
    error.to_string()
}

pub struct World<'a, 't> {
    pub ends: [End<'a>; 2],
    /// Messages on their way to each end.
    pub lines: [VecDeque<Vec<u8>>; 2],
    pub connected: bool,
    /// Both ends have come up once: from now on both keep their state.
    pub begun: bool,
    pub random: Random,
    pub habits: Habits,
    pub serial: u32,
    pub tally: &'t mut Tally,
}

impl<'a, 't> World<'a, 't> {
    fn new(ends: [End<'a>; 2], mut random: Random, habits: fn(&mut Random) -> Habits, tally: &'t mut Tally) -> Self {
        let habits = habits(&mut random);
        let lines = [VecDeque::new(), VecDeque::new()];
        World { ends, lines, connected: false, begun: false, random, habits, serial: 0, tally }
    }

    /// A fresh start, steps by chance, and a quiet end in which everything arrives.
    fn live(&mut self) -> Result<(), String> {
        self.tally.worlds += 1;
        self.start().map_err(|what| format!("start: {what}"))?;
        for step in 0..STEPS {
            let end = self.random.below(2);
            let event = self.event(end);
            let result = self.happen(end, event).and_then(|()| self.check());
            result.map_err(|what| format!("step {step}, {event:?} at end {end}, {:?}: {what}", self.habits))?;
        }
        self.drain().map_err(|what| format!("drain: {what}"))
    }

    /// After each step: the demand, from the bytes of both stores.
    fn check(&mut self) -> Result<(), String> {
        self.tally.steps += 1;
        let stores = Stores::read(&self.ends)?;
        let most = (0..2).map(|end| stores.of(end).queue.len()).max().unwrap_or(0);
        self.tally.most_held = self.tally.most_held.max(most);
        let [first, second] = &self.ends;
        let both_up = self.connected && first.is_up() && second.is_up();
        let agree = first.session.is_resumed() == second.session.is_resumed();
        require(!both_up || agree, "the ends do not agree on whether their connection is resumed")?;
        let same_time = stores.of(0).timeout == stores.of(1).timeout;
        require(!both_up || same_time, "the ends do not agree on how long they keep their state")?;
        stores.check(&self.ends, &self.habits)
    }

    /// Both ends come to a fresh session on one connection; one of them may still keep state of an older one.
    fn start(&mut self) -> Result<(), String> {
        let cuts = std::mem::take(&mut self.habits.cuts);
        let formatted = if self.random.percent(50) { 0..2 } else { 0..1 };
        for end in &mut self.ends[formatted] {
            end.format().map_err(text)?;
        }
        for end in 0..2 {
            self.restart(end)?;
            self.ends[end].begin();
        }
        self.connected = true;
        self.open(0)?;
        self.open(1)?;
        self.deliver(0)?;
        if self.random.percent(50) {
            self.submit(0)?;
            self.send(0)?;
        }
        self.deliver(1)?;
        self.settle_labels()?;
        self.start_late()?;
        (self.habits.cuts, self.begun) = (cuts, true);
        self.check()
    }

    /// Labels of the second end that both list, as after a long run, in the words that are free.
    fn settle_labels(&mut self) -> Result<(), String> {
        for (end, code) in [(0, 3), (1, 1)] {
            let settled = (0..self.habits.settled as u32).map(|n| (SETTLED + n, entry((n % 33) as u8, n << 8)));
            let settled: Vec<(u32, u64)> = settled.collect();
            let change = |stored: &mut Stored| settle(stored, code, &settled);
            self.ends[end].rewrite(change).map_err(text)?;
            let history = if code == 1 { &mut self.ends[end].given } else { &mut self.ends[end].used };
            history.extend(settled);
        }
        Ok(())
    }

    /// Moves a world in which nothing has happened yet to numbers near wrap-around.
    fn start_late(&mut self) -> Result<(), String> {
        let bases = [self.random.pick(&BASES), self.random.pick(&BASES)];
        if self.ends.iter().any(|end| !end.accepted.is_empty()) {
            return Ok(());
        }
        for end in 0..2 {
            let (own, other) = (bases[end], bases[1 - end]);
            self.ends[end].base = own;
            let change = |stored: &mut Stored| {
                (stored.released, stored.issued, stored.secured) = (own, own, other);
            };
            self.ends[end].rewrite(change).map_err(text)?;
        }
        Ok(())
    }

    pub fn break_connection(&mut self) {
        self.tally.breaks += u64::from(self.connected);
        self.connected = false;
        self.lines = [VecDeque::new(), VecDeque::new()];
    }

    /// Makes a call and stores what it names, or is cut before the end of that; none where it counts as not made.
    pub fn perform(&mut self, end: usize, call: &Call) -> Result<Option<Done>, String> {
        let before = self.ends[end].image.clone();
        let done = self.ends[end].call(call);
        let cut = self.choose_cut(&done.outcome);
        let reached = cut.unwrap_or(Cut::All);
        self.ends[end].store_until(&done.outcome, reached).map_err(text)?;
        if reached == Cut::All && !done.output.is_empty() && self.connected {
            self.lines[1 - end].push_back(done.output.clone());
        }
        let made = reached >= Cut::NoOutput;
        if let Some(cut) = cut {
            self.tally.note_cut(call.name(), cut);
            self.restart(end)?;
            if !made {
                check_undone(&before, &self.ends[end].image)?;
            }
        }
        Ok(made.then_some(done))
    }

    /// A store point at which the power is cut, at times. The points are those that the call has: one without a slot,
    /// or that leaves the further blocks as they were, has fewer.
    fn choose_cut(&mut self, outcome: &Outcome) -> Option<Cut> {
        let further = outcome.further_blocks().last();
        let refused = (1..=19).contains(&outcome.answer);
        let place = FURTHER.iter().position(|block| Some(*block) == further);
        let cuts = place.map_or(self.habits.cuts, |place| self.habits.cuts_in_further[place]);
        if refused || self.habits.cuts == 0 || !self.random.percent(cuts) {
            return None;
        }
        match further {
            Some(block) if self.random.percent(70) => Some(Cut::Further(block)),
            _ => Some(self.random.pick(&Cut::of(outcome))),
        }
    }

    /// The power comes back: the session is restored, and this may be cut too.
    pub fn restart(&mut self, end: usize) -> Result<(), String> {
        self.tally.restarts += 1;
        self.break_connection();
        loop {
            self.move_forward(end)?;
            let outcome = self.ends[end].power_up().map_err(text)?;
            if outcome.answer != 0 {
                return Err(format!("restore answered {} for block {}", outcome.answer, outcome.block));
            }
            if self.random.percent(self.habits.cuts) {
                self.tally.note_cut("restore", Cut::Nothing);
                continue;
            }
            return self.ends[end].store_until(&outcome, Cut::All).map_err(text);
        }
    }

    /// No more cuts, breaks or submissions: all that was accepted arrives.
    fn drain(&mut self) -> Result<(), String> {
        (self.habits.cuts, self.habits.submits, self.habits.breaks) = (0, 0, 0);
        for _ in 0..DRAIN_STEPS {
            if self.ends.iter().all(|end| u16_at(&end.image, 18) == 0) {
                self.tally.drained += 1;
                return check_drained(&self.ends, &self.habits, self.tally);
            }
            for end in 0..2 {
                self.reconnect(end)?;
                self.send(end)?;
                self.keepalive(end)?;
                self.deliver(end)?;
                self.deliver(end)?;
            }
            self.check()?;
        }
        Err("accepted messages do not arrive".to_string())
    }
}
