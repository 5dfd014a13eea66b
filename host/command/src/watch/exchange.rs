//! What a cabinet's process says and hears on its connection: PDUs in, PDUs out, each call stored before output leaves.

use super::cabinet_process::{Process, Record, ROOM};
use super::event::Kind;
use super::link::Link;
use super::plan;
use crate::message::timeout;
use cabinet::{phase, Cabinet};
use ldp_ft::Library;
use std::io;
use std::time::{Duration, Instant};
use support::wire::{message_type, protection_number, types, without_ft};

/// A KeepAlive goes out at least this often; without it the last message would stay unacknowledged.
const KEEPALIVE: Duration = Duration::from_millis(60);
const MESSAGES_IN_PDU: usize = 4;

/// The form of FT Session in a word.
fn form(published: bool) -> &'static str {
    if published {
        "published"
    } else {
        "draft"
    }
}

impl Process {
    /// Takes in what has arrived and sends what waits.
    pub fn exchange(&mut self, now: Instant) -> io::Result<()> {
        if let Some(pdu) = self.link()?.receive()? {
            self.take_pdu(&pdu)?;
        }
        if self.session.phase == phase::UP_FT {
            self.send_held()?;
            self.send_keepalive(now)?;
        }
        Ok(())
    }

    fn link(&mut self) -> io::Result<&mut Link> {
        self.link.as_mut().ok_or(io::ErrorKind::NotConnected.into())
    }

    fn take_pdu(&mut self, pdu: &[u8]) -> io::Result<()> {
        let opened = Library.pdu_open(pdu);
        if opened.answer != 0 {
            self.say(Kind::Works, "drops a malformed PDU");
            return Err(io::ErrorKind::InvalidData.into());
        }
        let mut at = 10;
        for _ in 0..opened.count {
            let part = Library.pdu_message(pdu, at);
            at = part.end as usize;
            self.take_message(&pdu[part.start as usize..at])?;
        }
        Ok(())
    }

    fn take_message(&mut self, msg: &[u8]) -> io::Result<()> {
        if self.session.phase == phase::INIT_WAIT {
            return self.take_init(msg);
        }
        let released = self.summary().released;
        let outcome = Library.receive(&mut self.image, self.session, msg);
        let number = protection_number(msg).filter(|_| outcome.answer == 0);
        let plain = without_ft(msg);
        self.keep(&outcome, number.map(|number| (plain.as_slice(), Record::Secured(number))))?;
        if outcome.answer != 0 {
            self.say(Kind::Works, &format!("receive answered {}", outcome.answer));
            return Err(io::ErrorKind::InvalidData.into());
        }
        if let Some(number) = number {
            self.acknowledges = true;
            let used = self.listed(3).len();
            let after = match outcome.left_out {
                0 => String::new(),
                left_out => format!(", {left_out} left out before it"),
            };
            let message = plan::in_words(&plain);
            self.say(Kind::Works, &format!("secures {message} as number {number}{after} (labels in use: {used})"));
        }
        let summary = self.summary();
        if summary.released != released {
            let through = format!("lets go of all through number {} ({} held)", summary.released, summary.held);
            self.say(Kind::Works, &through);
        }
        self.note_idle(msg, summary.released == released && summary.held == 0);
        Ok(())
    }

    /// Counts the KeepAlives of a peer that has acknowledged everything, also that it is to ask for nothing.
    fn note_idle(&mut self, msg: &[u8], is_idle: bool) {
        if !self.summary().is_stopping() {
            self.idle_keepalives = 0;
        } else if is_idle && message_type(msg) == types::KEEPALIVE {
            self.idle_keepalives += 1;
        }
    }

    fn take_init(&mut self, msg: &[u8]) -> io::Result<()> {
        let outcome = Library.init_received(&mut self.image, self.session, msg);
        self.keep(&outcome, None)?;
        if outcome.answer != 0 {
            self.say(Kind::Works, &format!("Init answered {}", outcome.answer));
            return Err(io::ErrorKind::InvalidData.into());
        }
        let (kind, how) = if self.session.is_resumed() {
            (Kind::Resumes, "resumes its session")
        } else {
            (Kind::Begins, "begins a fresh session")
        };
        let [ours, theirs] = [self.published, Library.message_read(msg).published == 1].map(form);
        let kept = timeout(u64::from(self.summary().timeout));
        let standing = self.standing();
        self.say(kind, &format!("{how}: {standing}; Inits: ours {ours}, the peer's {theirs}; state is kept {kept}"));
        self.caught_up = false;
        self.note_caught_up();
        Ok(())
    }

    /// Tells, once on each connection, that every message with a number has been sent on it or left out.
    fn note_caught_up(&mut self) {
        let summary = self.summary();
        if !self.caught_up && self.session.value >= summary.held - summary.pended {
            self.caught_up = true;
            self.say(Kind::CatchesUp, "has nothing more to send again");
        }
    }

    /// Sends some of the messages that wait, in one PDU; each is stored before the PDU leaves.
    fn send_held(&mut self) -> io::Result<()> {
        let mut messages = Vec::new();
        while messages.len() < MESSAGES_IN_PDU {
            let mut out = [0; ROOM];
            let sent = self.session.value;
            let outcome = Library.send_next(&mut self.image, self.session, self.acknowledges, &mut out);
            if outcome.answer != 0 {
                break;
            }
            self.keep(&outcome, None)?;
            self.note_left_out(sent, outcome.left_out)?;
            self.acknowledges = false;
            let msg = &out[..outcome.length as usize];
            if outcome.block0 == 0 {
                self.say_sent_again(msg);
            }
            self.note_caught_up();
            messages.push(msg.to_vec());
        }
        if messages.is_empty() {
            return Ok(());
        }
        if self.cut_by.is_some() {
            self.cut();
        }
        let lsr = self.lsr;
        self.link()?.send(lsr, &messages)
    }

    /// Notes the messages that were passed over, from a place of the send store on.
    fn note_left_out(&mut self, first: u32, count: u32) -> io::Result<()> {
        let released = self.summary().released;
        for place in first..first + count {
            let number = released + place + 1;
            let part = Library.held(&self.image, place);
            let request = plan::in_words(&self.image[part.start as usize..part.end as usize]);
            self.left_out.add(number)?;
            self.say(Kind::LeavesOut, &format!("leaves out {request}, number {number}: its Abort is held"));
        }
        Ok(())
    }

    /// A message that had its number already was sent on an earlier connection.
    fn say_sent_again(&self, msg: &[u8]) {
        let number = protection_number(msg).unwrap_or(0);
        self.say(Kind::SendsAgain, &format!("re-sends {} as number {number}", plan::in_words(&without_ft(msg))));
    }

    fn send_keepalive(&mut self, now: Instant) -> io::Result<()> {
        if !self.acknowledges && now < self.next_keepalive {
            return Ok(());
        }
        self.next_keepalive = now + KEEPALIVE;
        let mut out = [0; ROOM];
        let outcome = Library.keepalive(&self.image, self.session, 0, &mut out);
        self.keep(&outcome, None)?;
        self.acknowledges = false;
        let (lsr, keepalive) = (self.lsr, out[..outcome.length as usize].to_vec());
        self.link()?.send(lsr, &[keepalive])
    }
}
