//! The events of a world: what may befall an end in a step, and the calls that its owner makes then.

use super::end::{Done, End};
use super::index;
use super::owner::{self, Known};
use super::require;
use super::world::World;
use crate::calls::Call;
use crate::stored::{steps_between, Stored, SLOTS};
use crate::wire::{protection_number, without_ft};
use cabinet::{phase, Opening};

/// What may befall an end in a step.
#[derive(Clone, Copy, Debug)]
pub enum Event {
    Submit,
    Send,
    Keepalive,
    Deliver,
    Break,
    Restart,
    Reconnect,
    TimePassed,
    Convert,
}

impl World<'_, '_> {
    /// The next event at an end; one whose session is down is mostly about its connection.
    pub fn event(&mut self, end: usize) -> Event {
        if self.random.percent(self.habits.submits) {
            return Event::Submit;
        }
        if !self.ends[end].is_up() && self.random.percent(75) {
            let waits = self.ends[end].session.phase == phase::INIT_WAIT && self.connected;
            return if waits { Event::Deliver } else { Event::Reconnect };
        }
        if self.random.below(1_000) < self.habits.breaks {
            return Event::Break;
        }
        if self.random.below(1_000) < self.habits.moves {
            return Event::Convert;
        }
        match self.random.below(100) {
            35..=49 if self.random.percent(self.habits.keepalives) => Event::Keepalive,
            0..=49 => Event::Send,
            50..=95 => Event::Deliver,
            96 => Event::Restart,
            _ => Event::TimePassed,
        }
    }

    pub fn happen(&mut self, end: usize, event: Event) -> Result<(), String> {
        match event {
            Event::Submit => self.submit(end),
            Event::Send => self.send(end),
            Event::Keepalive => self.keepalive(end),
            Event::Deliver => self.deliver(end),
            Event::Break => {
                self.break_connection();
                Ok(())
            }
            Event::Restart => self.restart(end),
            Event::Reconnect => self.reconnect(end),
            Event::TimePassed => self.time_passed(end),
            Event::Convert => self.convert(end),
        }
    }

    pub fn submit(&mut self, end: usize) -> Result<(), String> {
        self.serial += 1;
        let stored = Stored::read(&self.ends[end].image);
        let session = self.ends[end].session;
        let known = Known { stored: &stored, session, secured: &self.ends[end].secured };
        let msg = owner::submission(&mut self.random, &self.habits, &known, self.serial);
        let made = self.perform(end, &Call::Submit { session, msg: msg.clone() })?;
        match made.map(|done| done.outcome.answer) {
            Some(0) => {
                let open = self.ends[end].open.len();
                self.ends[end].note_accepted(msg);
                self.tally.accepted += 1;
                self.tally.asked += u64::from(self.ends[end].open.len() > open);
                self.tally.aborted += u64::from(self.ends[end].open.len() < open);
            }
            Some(14) => self.tally.stopped += 1,
            Some(7) if stored.queue.len() == SLOTS => self.tally.full += 1,
            Some(7) => return Err(format!("refused for room with {} held", stored.queue.len())),
            _ => {}
        }
        Ok(())
    }

    pub fn send(&mut self, end: usize) -> Result<(), String> {
        let session = self.ends[end].session;
        let stored = Stored::read(&self.ends[end].image);
        let ack = self.random.percent(self.habits.acks);
        let Some(done) = self.perform(end, &Call::SendNext { session, ack, room: 0 })? else { return Ok(()) };
        let all_sent = session.value as usize == stored.queue.len();
        require(done.outcome.answer != 8 || all_sent, "nothing is unsent, and something was not sent")?;
        if done.outcome.answer != 0 {
            return Ok(());
        }
        let marked = self.ends[end].left_out.len();
        self.ends[end].note_sent(&stored, session.value, &done)?;
        self.tally.sent += 1;
        self.tally.left_out += (self.ends[end].left_out.len() - marked) as u64;
        self.tally.passed_over += u64::from(done.outcome.left_out);
        Ok(())
    }

    pub fn keepalive(&mut self, end: usize) -> Result<(), String> {
        let session = self.ends[end].session;
        self.serial += 1;
        self.perform(end, &Call::Keepalive { session, message_id: self.serial, room: 0 })?;
        Ok(())
    }

    /// Hands the oldest message on its way to an end that awaits it.
    pub fn deliver(&mut self, end: usize) -> Result<(), String> {
        let session = self.ends[end].session;
        let waits = session.phase == phase::INIT_WAIT;
        if !waits && !self.ends[end].is_up() {
            return Ok(());
        }
        let Some(msg) = self.lines[end].pop_front() else { return Ok(()) };
        let call = if waits {
            Call::InitReceived { session, msg: msg.clone() }
        } else {
            Call::Receive { session, msg: msg.clone() }
        };
        let before = Stored::read(&self.ends[end].image);
        let Some(Done { outcome, .. }) = self.perform(end, &call)? else { return Ok(()) };
        if outcome.answer != 0 {
            return Err(format!("{} answered {}", call.name(), outcome.answer));
        }
        if waits {
            self.tally.resumed += u64::from(self.begun);
            self.tally.mixed += u64::from(self.ends[0].published != self.ends[1].published);
            return require(
                outcome.session.is_resumed() == self.begun,
                "resumed is not that both ends kept their state",
            );
        }
        let left_out =
            protection_number(&msg).map_or(0, |number| steps_between(before.secured, number).wrapping_sub(1));
        require(outcome.left_out == left_out, "the receiver does not count the numbers left out")?;
        self.tally.moved += index::moved(&before, &Stored::read(&self.ends[end].image));
        self.note_delivered(end, &msg);
        Ok(())
    }

    /// A message that was delivered and has a number is secured.
    fn note_delivered(&mut self, end: usize, msg: &[u8]) {
        if protection_number(msg).is_none() {
            return;
        }
        let open = self.ends[end].open.len();
        self.ends[end].note_secured(without_ft(msg));
        self.tally.secured += 1;
        self.tally.answered += u64::from(self.ends[end].open.len() < open);
    }

    /// A broken connection is noticed, a new one is made once both ends are down, and each end opens it.
    pub fn reconnect(&mut self, end: usize) -> Result<(), String> {
        if !self.connected && !self.ends[end].is_down() {
            let session = self.ends[end].session;
            self.perform(end, &Call::ConnectionFailed { session })?;
        } else if !self.connected && self.ends.iter().all(End::is_down) {
            self.connected = true;
        } else if self.connected && self.ends[end].is_down() {
            self.open(end)?;
        }
        Ok(())
    }

    /// Each end writes the form that it likes, and another on the next connection.
    pub fn open(&mut self, end: usize) -> Result<(), String> {
        let session = self.ends[end].session;
        let published = self.random.percent(50);
        let proposals: &[Option<u32>] =
            if published { &[None, Some(0), Some(90_000), Some(90_250)] } else { &[None, Some(0), Some(90)] };
        self.ends[end].published = published;
        let opening = Opening {
            message_id: self.serial,
            keepalive_time: 30,
            max_pdu_length: 4096,
            receiver_lsr: 0xC000_0201,
            receiver_space: 0,
            proposal: self.random.pick(proposals),
            on_demand: self.habits.asks > 0,
            published,
        };
        self.perform(end, &Call::Open { session, opening, room: 0 })?;
        Ok(())
    }

    /// Time that is too short to end the session.
    fn time_passed(&mut self, end: usize) -> Result<(), String> {
        let session = self.ends[end].session;
        let timeout = Stored::read(&self.ends[end].image).timeout;
        let elapsed = timeout.checked_sub(1).unwrap_or(u32::MAX);
        self.perform(end, &Call::TimePassed { session, elapsed })?;
        Ok(())
    }
}
