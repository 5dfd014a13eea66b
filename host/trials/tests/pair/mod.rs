//! Two ends of one connection, whose calls are expected to do what they are told to.

// Each test file is a program of its own and uses some of this.
#![allow(dead_code)]

use cabinet::{phase, Cabinet, Opening, Outcome, Session, IMAGE_SIZE};
use trials::stored::Stored;
use trials::wire::{protection_number, types, without_ft, Message};

/// A cabinet with its memory, and what it wrote last.
pub struct End {
    pub cabinet: &'static dyn Cabinet,
    pub image: Vec<u8>,
    pub session: Session,
    /// How it opens a connection.
    pub opening: Opening,
    pub written: Vec<u8>,
}

impl End {
    pub fn new(cabinet: &'static dyn Cabinet, stored: &Stored, session: Session) -> Self {
        End { cabinet, image: stored.image(0), session, opening: Opening::default(), written: Vec::new() }
    }

    pub fn fresh(cabinet: &'static dyn Cabinet) -> Self {
        let mut image = vec![0; IMAGE_SIZE];
        let session = cabinet.format(&mut image).session;
        End { cabinet, image, session, opening: Opening::default(), written: Vec::new() }
    }

    pub fn submit(&mut self, msg: &[u8], answer: u32) {
        let outcome = self.cabinet.submit(&mut self.image, self.session, msg);
        assert_eq!(outcome.answer, answer);
    }

    pub fn send_into(&mut self, room: usize) -> Outcome {
        let mut out = vec![0; room];
        let outcome = self.cabinet.send_next(&mut self.image, self.session, false, &mut out);
        self.session = outcome.session;
        self.written = out[..outcome.length as usize].to_vec();
        outcome
    }

    /// The next message goes out: the one given, with that number, after so many left out.
    pub fn expect_sent(&mut self, msg: &[u8], number: u32, left_out: u32) {
        let sent = self.session.value;
        let outcome = self.send_into(500);
        assert_eq!((outcome.answer, outcome.left_out), (0, left_out));
        assert_eq!((protection_number(&self.written), without_ft(&self.written)), (Some(number), msg.to_vec()));
        assert_eq!(outcome.session, Session { value: sent + 1 + left_out, ..self.session });
    }

    pub fn expect_nothing_unsent(&mut self) {
        assert_eq!(self.send_into(500).answer, 8);
    }

    pub fn receive(&mut self, msg: &[u8], left_out: u32) {
        let outcome = self.cabinet.receive(&mut self.image, self.session, msg);
        assert_eq!((outcome.answer, outcome.left_out), (0, left_out));
        self.session = outcome.session;
    }

    /// A KeepAlive with an acknowledgement comes.
    pub fn acknowledged(&mut self, number: u32) {
        self.receive(&Message::new(types::KEEPALIVE, 1).ack(number).bytes(), 0);
    }

    pub fn fail(&mut self) {
        self.session = self.cabinet.connection_failed(&mut self.image, self.session).session;
        assert_eq!(self.session, Session::new(phase::FAILED, 0));
    }

    fn init(&mut self) -> Vec<u8> {
        let mut out = [0; 50];
        let outcome = self.cabinet.open(&self.image, self.session, &self.opening, &mut out);
        self.session = outcome.session;
        out[..outcome.length as usize].to_vec()
    }

    pub fn stored(&self) -> Stored {
        Stored::read(&self.image)
    }
}

/// Both Inits cross; both ends are up, resumed or not.
pub fn connect(ours: &mut End, peers: &mut End, resumed: bool) {
    let (init, other) = (ours.init(), peers.init());
    for (end, msg) in [(ours, other), (peers, init)] {
        let outcome = end.cabinet.init_received(&mut end.image, end.session, &msg);
        assert_eq!((outcome.answer, outcome.session.phase), (0, phase::UP_FT));
        assert_eq!(outcome.session.is_resumed(), resumed);
        end.session = outcome.session;
    }
}
