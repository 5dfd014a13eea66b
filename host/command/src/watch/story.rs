//! A run as a story: starts, cuts, kills, breaks, and what each new connection sends again; a line each, the rest left
//! out.

use super::event::{Event, Kind};
use super::NAMES;

/// What an end has done on a connection so far.
#[derive(Clone, Copy, Debug, Default)]
struct Opened {
    fresh: bool,
    sent_again: usize,
    left_out: usize,
    caught_up: bool,
}

/// What has been told, as far as it bears on what is told next.
#[derive(Debug, Default)]
pub struct Story {
    /// The ends that have a session on the connection, until it is told of.
    opened: [Option<Opened>; 2],
    /// Why the connection is down has been told.
    is_down: bool,
}

impl Story {
    /// The lines that an event adds. A connection is told of when both ends have sent again what they had to.
    pub fn take(&mut self, event: &Event) -> Vec<String> {
        let name = NAMES[event.end];
        match event.kind {
            Kind::Starts => vec![event.text.clone()],
            Kind::Cuts => self.interrupted(format!("{name} cuts the connection")),
            Kind::Killed => self.interrupted(format!("{name} is killed")),
            Kind::Breaks => self.broken(event.end),
            Kind::Begins => self.open(event.end, true),
            Kind::Resumes => self.open(event.end, false),
            Kind::SendsAgain => self.count(event.end, |opened| opened.sent_again += 1),
            Kind::LeavesOut => self.count(event.end, |opened| opened.left_out += 1),
            Kind::CatchesUp => self.count(event.end, |opened| opened.caught_up = true),
            Kind::Ends | Kind::Works => Vec::new(),
        }
    }

    /// Of a connection that one end has opened the other may have been cut off already; it is up when both have.
    fn open(&mut self, end: usize, fresh: bool) -> Vec<String> {
        self.opened[end] = Some(Opened { fresh, ..Opened::default() });
        self.is_down &= !self.opened.iter().all(Option::is_some);
        Vec::new()
    }

    fn count(&mut self, end: usize, count: impl FnOnce(&mut Opened)) -> Vec<String> {
        self.opened[end].as_mut().map(count);
        if self.opened.iter().all(|opened| opened.is_some_and(|opened| opened.caught_up)) {
            self.settle()
        } else {
            Vec::new()
        }
    }

    fn broken(&mut self, end: usize) -> Vec<String> {
        if !self.is_down {
            return self.interrupted(format!("{} finds the connection broken", NAMES[end]));
        }
        self.opened[end] = None;
        Vec::new()
    }

    /// What ends a connection, after what was done on it.
    fn interrupted(&mut self, line: String) -> Vec<String> {
        self.is_down = true;
        let mut lines = self.settle();
        lines.push(line);
        lines
    }

    /// What was done on a connection that both have opened, if it is still to be told.
    fn settle(&mut self) -> Vec<String> {
        let [Some(north), Some(south)] = std::mem::take(&mut self.opened) else { return Vec::new() };
        let both = [north, south];
        match both.map(|opened| opened.fresh) {
            [true, true] => vec!["a fresh session begins".to_string()],
            [false, false] => vec![format!("resumed{}{}", sent_again(&both), left_out(&both))],
            [_, south_is_fresh] => vec![format!("{} alone begins a fresh session", NAMES[usize::from(south_is_fresh)])],
        }
    }
}

fn sent_again(both: &[Opened; 2]) -> String {
    format!("; sent again: {}", of_each(both, |opened| opened.sent_again))
}

fn left_out(both: &[Opened; 2]) -> String {
    if both.iter().all(|opened| opened.left_out == 0) {
        return String::new();
    }
    format!("; left out: {}", of_each(both, |opened| opened.left_out))
}

fn of_each(both: &[Opened; 2], count: fn(&Opened) -> usize) -> String {
    let [north, south] = both.each_ref().map(count);
    format!("{} {north}, {} {south}", NAMES[0], NAMES[1])
}

#[cfg(test)]
mod tests {
    use super::*;
    use std::time::Duration;

    /// The story of events, each a kind and an end.
    fn told(events: &[(Kind, usize)]) -> Vec<String> {
        let mut story = Story::default();
        let event = |(kind, end): &(Kind, usize)| Event::new(Duration::ZERO, *kind, *end, "says so");
        events.iter().flat_map(|given| story.take(&event(given))).collect()
    }

    const UP: [(Kind, usize); 4] = [(Kind::Resumes, 0), (Kind::Resumes, 1), (Kind::CatchesUp, 0), (Kind::CatchesUp, 1)];

    #[test]
    fn a_session_begins_is_cut_and_resumed() {
        let events = [
            (Kind::Starts, 0),
            (Kind::Starts, 1),
            (Kind::Begins, 1),
            (Kind::CatchesUp, 1),
            (Kind::Works, 1),
            (Kind::Begins, 0),
            (Kind::CatchesUp, 0),
            (Kind::Cuts, 1),
            (Kind::Breaks, 0),
            (Kind::Breaks, 1),
            (Kind::Resumes, 0),
            (Kind::SendsAgain, 0),
            (Kind::SendsAgain, 0),
            (Kind::Resumes, 1),
            (Kind::LeavesOut, 1),
            (Kind::CatchesUp, 1),
            (Kind::CatchesUp, 0),
            (Kind::Ends, 0),
            (Kind::Ends, 1),
        ];
        assert_eq!(
            told(&events),
            [
                "north  says so",
                "south  says so",
                "a fresh session begins",
                "south cuts the connection",
                "resumed; sent again: north 2, south 0; left out: north 0, south 1",
            ]
        );
    }

    #[test]
    fn a_break_is_told_where_nothing_that_causes_it_was() {
        let resumed = "resumed; sent again: north 0, south 0";
        assert_eq!(
            told(&[&UP[..], &[(Kind::Breaks, 1), (Kind::Breaks, 0)], &UP].concat()),
            [resumed, "south finds the connection broken", resumed]
        );
        assert_eq!(
            told(&[&UP[..], &[(Kind::Killed, 0), (Kind::Breaks, 1), (Kind::Starts, 0)], &UP].concat()),
            [resumed, "north is killed", "north  says so", resumed]
        );
    }

    /// What comes too early is told as far as it went, before what ended it.
    #[test]
    fn a_connection_that_ends_before_all_is_sent_again() {
        let events = [(Kind::Resumes, 0), (Kind::SendsAgain, 0), (Kind::Resumes, 1), (Kind::Cuts, 0)];
        assert_eq!(told(&events), ["resumed; sent again: north 1, south 0", "north cuts the connection"]);
        assert_eq!(told(&[(Kind::Resumes, 1), (Kind::Killed, 0)]), ["north is killed"]);
        let torn = [(Kind::Resumes, 0), (Kind::Begins, 1), (Kind::CatchesUp, 0), (Kind::CatchesUp, 1)];
        assert_eq!(told(&torn), ["south alone begins a fresh session"]);
    }

    /// An end may open a session on a connection that the other has cut already; its break is no news.
    #[test]
    fn a_connection_that_was_cut_before_one_end_opened_it() {
        let events = [&UP[..], &[(Kind::Cuts, 1), (Kind::Resumes, 0), (Kind::CatchesUp, 0), (Kind::Breaks, 0)], &UP];
        let resumed = "resumed; sent again: north 0, south 0";
        assert_eq!(told(&events.concat()), [resumed, "south cuts the connection", resumed]);
    }
}
