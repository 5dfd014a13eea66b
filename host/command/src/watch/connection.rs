//! How a cabinet's process comes to its connection and loses it.

use super::cabinet_process::{Process, ROOM};
use super::event::Kind;
use cabinet::{phase, Cabinet, Opening};
use ldp_ft::Library;
use std::io;
use std::time::{Duration, Instant};

const RETRY: Duration = Duration::from_millis(30);
/// For so long state is kept over a break: longer than any that a busy machine makes.
const TIMEOUT: Duration = Duration::from_secs(600);

impl Process {
    /// Cuts the connection, which is told before the other end can notice. What is sent on it from now on does not
    /// leave.
    pub fn cut(&mut self) {
        self.cut_by = None;
        if let Some(link) = &self.link {
            self.say(Kind::Cuts, "cuts the connection");
            link.cut();
        }
    }

    /// Waits for a connection and opens the session on it; or notices that too much time has passed.
    pub fn connect(&mut self, now: Instant) -> io::Result<()> {
        if now < self.next_try {
            std::thread::sleep(Duration::from_millis(2));
            return Ok(());
        }
        self.next_try = now + RETRY;
        if self.session.phase == phase::FAILED {
            let elapsed = self.broken_at.elapsed().as_millis() as u32;
            let outcome = Library.time_passed(&mut self.image, self.session, elapsed);
            self.keep(&outcome, None)?;
        }
        let Some(mut link) = self.way.connection(&self.port_file) else { return Ok(()) };
        let opening = Opening {
            message_id: 0,
            keepalive_time: 30,
            max_pdu_length: 4096,
            receiver_lsr: self.lsr ^ 3,
            receiver_space: 0,
            proposal: Some(self.proposal()),
            on_demand: self.on_demand,
            published: self.published,
        };
        let mut out = [0; ROOM];
        let outcome = Library.open(&self.image, self.session, &opening, &mut out);
        self.keep(&outcome, None)?;
        let init = out[..outcome.length as usize].to_vec();
        if link.send(self.lsr, &[init]).is_ok() {
            self.link = Some(link);
        } else {
            self.lose_connection()?;
        }
        Ok(())
    }

    /// The timeout in the unit of the form that it is proposed in.
    fn proposal(&self) -> u32 {
        let unit = if self.published { TIMEOUT.as_millis() } else { u128::from(TIMEOUT.as_secs()) };
        unit as u32
    }

    pub fn lose_connection(&mut self) -> io::Result<()> {
        self.link = None;
        let (now, phase) = (Instant::now(), self.session.phase);
        (self.broken_at, self.next_try) = (now, now + RETRY);
        let outcome = Library.connection_failed(&mut self.image, self.session);
        if outcome.answer == 0 {
            self.keep(&outcome, None)?;
        }
        if phase == phase::UP_FT {
            self.say(Kind::Breaks, &format!("connection broken: {} held", self.summary().held));
        }
        Ok(())
    }
}
