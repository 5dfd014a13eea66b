//! What the cabinets tell while they work: a line each, with its time, its sort and the cabinet.

use super::NAMES;
use std::time::Duration;

/// What sort of thing is told.
#[derive(Clone, Copy, Debug, PartialEq, Eq)]
pub enum Kind {
    /// A process begins with a new store, or again with the one that was left.
    Starts,
    Cuts,
    Breaks,
    /// A session that is not resumed.
    Begins,
    Resumes,
    SendsAgain,
    LeavesOut,
    /// All that was on its way when the connection broke has been sent again or left out.
    CatchesUp,
    Killed,
    Ends,
    /// Everything else.
    Works,
}

/// Each kind as it stands in a line.
const WORDS: [(Kind, &str); 11] = [
    (Kind::Starts, "starts"),
    (Kind::Cuts, "cuts"),
    (Kind::Breaks, "breaks"),
    (Kind::Begins, "begins"),
    (Kind::Resumes, "resumes"),
    (Kind::SendsAgain, "sends-again"),
    (Kind::LeavesOut, "leaves-out"),
    (Kind::CatchesUp, "catches-up"),
    (Kind::Killed, "killed"),
    (Kind::Ends, "ends"),
    (Kind::Works, "works"),
];

/// Something that a cabinet tells, or that is told of it.
#[derive(Clone, Debug, PartialEq, Eq)]
pub struct Event {
    pub at: Duration,
    pub kind: Kind,
    /// Which of the two cabinets.
    pub end: usize,
    pub text: String,
}

impl Event {
    /// Times are of whole microseconds, as they stand in a line.
    pub fn new(at: Duration, kind: Kind, end: usize, what: &str) -> Self {
        let at = Duration::from_micros(at.as_micros() as u64);
        Event { at, kind, end, text: format!("{:<6} {what}", NAMES[end]) }
    }

    pub fn line(&self) -> String {
        let word = WORDS.iter().find(|(kind, _)| *kind == self.kind).map_or("", |(_, word)| word);
        format!("{} {word} {} {}", self.at.as_micros(), self.end, self.text)
    }

    /// None of a line that was cut off.
    pub fn read(line: &str) -> Option<Self> {
        let mut parts = line.splitn(4, ' ');
        let at = Duration::from_micros(parts.next()?.parse().ok()?);
        let word = parts.next()?;
        let kind = WORDS.iter().find(|(_, known)| *known == word)?.0;
        let end = parts.next()?.parse().ok().filter(|end| *end < NAMES.len())?;
        Some(Event { at, kind, end, text: parts.next()?.to_string() })
    }
}

#[cfg(test)]
mod tests {
    use super::*;

    #[test]
    fn every_kind_is_read_as_it_was_written() {
        for (kind, _) in WORDS {
            let event = Event::new(Duration::from_nanos(1_234_567), kind, 1, "says  what it  does");
            assert_eq!(event.line().split(' ').next(), Some("1234"));
            assert_eq!(Event::read(&event.line()), Some(event));
        }
        for wrong in ["", "12", "12 works", "12 works 0", "12 works 2 x", "12 plays 0 x", "x works 0 x"] {
            assert_eq!(Event::read(wrong), None, "{wrong}");
        }
    }
}
