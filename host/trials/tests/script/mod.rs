//! The script that session_cases plays, played on any cabinet: the same lines are due. tests/session writes both.

use cabinet::{flags, phase, Cabinet, Opening, Outcome, Session, BLOCK_SIZE, IMAGE_SIZE};
use support::hex;
use trials::stored::u32_at;

const PLACES: usize = 5;
/// The image at the first place is a byte too short.
const SHORT: usize = 0;
/// The second of two cabinets, which has parameters of its own.
const P2: usize = 2;
const ROOM: usize = 512;
const PHASES: [&str; 5] = ["Idle", "InitWait", "UpFT", "UpPlain", "Failed"];

/// A line of the script: what is printed in front, the word, its numbers, and a message.
struct Line<'a> {
    name: &'a str,
    word: &'a str,
    numbers: Vec<Option<usize>>,
    message: &'a str,
}

impl<'a> Line<'a> {
    fn read(line: &'a str) -> Self {
        let mut parts = line.splitn(3, ": ");
        let mut part = || parts.next().unwrap_or("");
        let (name, deed, message) = (part(), part(), part());
        let mut words = deed.split(' ');
        let word = words.next().unwrap_or("");
        Line { name, word, numbers: words.map(|number| number.parse().ok()).collect(), message }
    }

    /// A number, if the line has it and it is none that stands for "not given".
    fn given(&self, at: usize) -> Option<usize> {
        self.numbers.get(at).copied().flatten()
    }

    fn number(&self, at: usize) -> usize {
        self.given(at).unwrap_or(0)
    }
}

/// Five cabinets, and what they have printed.
pub struct Player<'a> {
    cabinet: &'a dyn Cabinet,
    images: Vec<Vec<u8>>,
    sessions: [Session; PLACES],
    written: Vec<Vec<u8>>,
    pub lines: Vec<String>,
}

impl<'a> Player<'a> {
    pub fn new(cabinet: &'a dyn Cabinet) -> Self {
        let images = (0..PLACES).map(|place| vec![0; IMAGE_SIZE - usize::from(place == SHORT)]).collect();
        let (sessions, written) = ([Session::default(); PLACES], vec![Vec::new(); PLACES]);
        Player { cabinet, images, sessions, written, lines: Vec::new() }
    }

    /// Plays a line of the script.
    pub fn play(&mut self, line: &str) {
        let line = Line::read(line);
        let place = line.number(0);
        match line.word {
            "title" => self.lines.push(line.name.to_string()),
            "counts" => self.lines.push(self.counts(&line)),
            "request" => {
                let request = self.cabinet.request_at(&self.images[place], line.number(1) as u32);
                self.lines.push(format!("{} open {} id {}", line.name, request.open, request.id));
            }
            "copy" => self.copy(&line),
            "spoil" => self.images[place][line.number(1)] = line.number(2) as u8,
            word => match PHASES.iter().position(|phase| *phase == word) {
                Some(phase) => self.sessions[place] = session(phase as u32, &line),
                None => self.call(&line),
            },
        }
    }

    /// Another place's image and phase, or one block of it in the place of one here.
    fn copy(&mut self, line: &Line) {
        let (place, source) = (line.number(0), line.number(1));
        let length = self.images[place].len();
        match (line.given(2), line.given(3)) {
            (Some(here), Some(there)) => {
                let block = self.images[source][there * BLOCK_SIZE..][..BLOCK_SIZE].to_vec();
                self.images[place][here * BLOCK_SIZE..][..BLOCK_SIZE].copy_from_slice(&block);
            }
            _ => self.images[place] = self.images[source][..length].to_vec(),
        }
        self.sessions[place] = self.sessions[source];
    }

    fn message(&self, text: &str) -> Vec<u8> {
        match text.strip_prefix("from ") {
            Some(place) => self.written[place.parse::<usize>().unwrap()].clone(),
            None => hex::bytes(text.as_bytes()).unwrap(),
        }
    }

    fn call(&mut self, line: &Line) {
        let (place, msg) = (line.number(0), self.message(line.message));
        let (cabinet, image, session) = (self.cabinet, &mut self.images[place], self.sessions[place]);
        let room = if matches!(line.word, "open" | "send" | "keepalive") { line.number(1) } else { 0 };
        let mut out = vec![0; room.min(ROOM)];
        let outcome = match line.word {
            "format" => cabinet.format(image),
            "restore" => cabinet.restore(image),
            "open" => cabinet.open(image, session, &opening(line), &mut out),
            "init" => cabinet.init_received(image, session, &msg),
            "submit" => cabinet.submit(image, session, &msg),
            "send" => cabinet.send_next(image, session, line.number(2) == 1, &mut out),
            "receive" => cabinet.receive(image, session, &msg),
            "keepalive" => cabinet.keepalive(image, session, 2, &mut out),
            "failed" => cabinet.connection_failed(image, session),
            "time" => cabinet.time_passed(image, session, line.number(1) as u32),
            word => panic!("no such word: {word}"),
        };
        out.truncate(outcome.length as usize);
        self.sessions[place] = outcome.session;
        self.lines.push(shown(line.name, &outcome, &self.images[place]));
        if !out.is_empty() {
            self.lines.push(format!("  {}", hex::digits(&out)));
            self.written[place] = out;
        }
    }

    fn counts(&self, line: &Line) -> String {
        let counts = self.cabinet.summarize(&self.images[line.number(0)]);
        if counts.answer != 0 {
            return format!("{} refused {} block {}", line.name, counts.answer, counts.block);
        }
        let numbers = [counts.released, counts.issued, counts.secured, counts.held, counts.pended, counts.labels];
        let names = ["released", "issued", "secured", "held", "pended", "labels"];
        names.iter().zip(numbers).fold(line.name.to_string(), |text, (name, number)| format!("{text} {name} {number}"))
    }
}

/// The phase with the number that it bears, and 1 for a resumed connection.
fn session(phase: u32, line: &Line) -> Session {
    let flags = if phase == phase::UP_FT && line.number(2) == 1 { flags::RESUMED } else { 0 };
    Session { phase, value: line.number(1) as u32, flags }
}

/// What Open is given: a proposal, and 1 for labels on demand, 2 for the published form, 3 for both.
fn opening(line: &Line) -> Opening {
    let (keepalive_time, max_pdu_length, receiver_lsr) =
        if line.number(0) == P2 { (15, 1500, 0x0A00_0001) } else { (30, 4096, 0x0A00_0002) };
    let manner = line.number(3);
    Opening {
        message_id: 1,
        keepalive_time,
        max_pdu_length,
        receiver_lsr,
        receiver_space: 0,
        proposal: line.given(2).map(|proposal| proposal as u32),
        on_demand: manner & 1 != 0,
        published: manner & 2 != 0,
    }
}

/// An outcome, with the check of each block that is to be stored.
fn shown(name: &str, outcome: &Outcome, image: &[u8]) -> String {
    let Outcome { answer, block, session, length, slot, block0, further, left_out } = *outcome;
    let check = |block: usize| format!(" {:08x}", u32_at(image, block * BLOCK_SIZE + 508));
    let block = if [10, 11].contains(&answer) { format!(" block {block}") } else { String::new() };
    let value = match session.phase {
        phase::UP_FT if session.is_resumed() => format!(" {} resumed", session.value),
        phase::UP_FT | phase::INIT_WAIT => format!(" {}", session.value),
        _ => String::new(),
    };
    let slot_check = if slot == 0 { String::new() } else { check(slot as usize) };
    let checks: String = outcome.further_blocks().map(check).collect();
    let block0 = if block0 == 0 { "false".to_string() } else { format!("true{}", check(0)) };
    let left_out = if left_out == 0 { String::new() } else { format!(", left out {left_out}") };
    let phase = PHASES[session.phase as usize];
    format!(
        "{name}: {answer}{block}, {phase}{value}, written {length}, slot {slot}{slot_check}, further {further}{checks}, \
         block0 {block0}{left_out}"
    )
}
