//! What the owner of a cabinet sends where labels are asked for before they are offered. All of it follows from what
//! was accepted and secured before, so that it goes on after a kill.

use super::plan::{about, View};
use support::wire::{self, prefix, types, Message, NO_RESOURCES, RESOURCES_AVAILABLE};

/// The first Request's message ID.
const FIRST_ID: u32 = 10_000;

/// The labels that one cabinet asks the other for; it gives what it is asked for.
pub struct Asks {
    first: u32,
    labels: u32,
}

impl Asks {
    /// Asks for so many labels of the other cabinet, from the first.
    pub fn new(first: u32, labels: u32) -> Self {
        Asks { first, labels }
    }

    /// The next message: during a break the Aborts of what it has caught, then answers, then questions.
    pub fn next(&self, view: &View) -> Option<Vec<u8>> {
        let first = give_up(view).or_else(|| self.answer(view)).or_else(|| available(view));
        first.or_else(|| withdraw(view)).or_else(|| self.ask(view))
    }

    /// True where everything was asked for and answered, each way, and labels are to be had.
    pub fn is_done(&self, view: &View) -> bool {
        let up = View { is_up: true, ..*view };
        view.open.is_empty() && !view.is_stopping && self.next(&up).is_none()
    }

    /// The answer to the oldest Request of the peer's that waits for one. The label in the middle of the plan is
    /// refused once.
    fn answer(&self, view: &View) -> Option<Vec<u8>> {
        let is_over = |id: u32| is_answered(view.accepted, id) || is_aborted(view.secured, id);
        let waits = |request: &Vec<u8>| !self.is_given_up(request) && !is_over(wire::message_id(request));
        let request = requests(view.secured).find(|request| waits(request))?;
        let (id, label) = (wire::message_id(request), wanted(request)?);
        let message_id = view.accepted.len() as u32;
        let mut asked = requests(view.secured).filter(|other| wanted(other) == Some(label));
        let refused = asked.any(|other| is_refused(view.accepted, wire::message_id(other)));
        if !refused && self.place(label) == self.middle() {
            return Some(Message::new(types::NOTIFICATION, message_id).status_of(NO_RESOURCES, id).bytes());
        }
        Some(about(types::MAPPING, label, message_id).request_id(id).bytes())
    }

    /// The Abort of a Request that is given up; else the next Request.
    fn ask(&self, view: &View) -> Option<Vec<u8>> {
        let is_open = |request: &&Vec<u8>| view.open.contains(&wire::message_id(request));
        let mut open = requests(view.accepted).filter(is_open);
        if let Some(request) = open.find(|request| self.is_given_up(request)) {
            return abort(view, wire::message_id(request));
        }
        let label = (self.first..self.first + self.labels).find(|label| !self.is_settled(view, *label))?;
        let id = FIRST_ID + requests(view.accepted).count() as u32;
        view.is_up.then(|| Message::new(types::REQUEST, id).fec(&prefix(label as u16)).bytes())
    }

    /// True where a label was asked for, and neither turned down since nor caught by a break.
    fn is_settled(&self, view: &View, label: u32) -> bool {
        let Some(last) = requests(view.accepted).filter(|request| wanted(request) == Some(label)).last() else {
            return false;
        };
        let id = wire::message_id(last);
        let is_caught = is_aborted(view.accepted, id) && !self.is_given_up(last) && !is_answered(view.secured, id);
        !is_caught && !is_refused(view.secured, id)
    }

    /// The place of a label in the plan, the same at both cabinets.
    fn place(&self, label: u32) -> u32 {
        label % self.labels
    }

    fn middle(&self) -> u32 {
        self.labels / 2
    }

    /// The Request for every fifth label, never for the one in the middle, is not answered, and aborted.
    fn is_given_up(&self, request: &[u8]) -> bool {
        wanted(request).is_some_and(|label| self.place(label) % 5 == (self.middle() + 1) % 5)
    }
}

/// The Abort of a Request that a break has caught on its way. If the Request did not arrive it is left out of what is
/// sent again.
fn give_up(view: &View) -> Option<Vec<u8>> {
    let caught = view.open.iter().find(|id| !view.is_up && view.sent.contains(id))?;
    abort(view, *caught)
}

fn abort(view: &View, id: u32) -> Option<Vec<u8>> {
    let request = requests(view.accepted).find(|request| wire::message_id(request) == id)?;
    let abort = Message::new(types::ABORT, view.accepted.len() as u32);
    Some(abort.fec(&prefix(wanted(request)? as u16)).request_id(id).bytes())
}

/// Labels are to be had again, some time after they were not.
fn available(view: &View) -> Option<Vec<u8>> {
    let message = Message::new(types::NOTIFICATION, view.accepted.len() as u32);
    view.has_recovered.then(|| message.status(RESOURCES_AVAILABLE).bytes())
}

/// Every third label that was given is withdrawn again.
fn withdraw(view: &View) -> Option<Vec<u8>> {
    let label = view.given.iter().find(|label| **label % 3 == 0)?;
    Some(about(types::WITHDRAW, *label, view.accepted.len() as u32).bytes())
}

fn requests(messages: &[Vec<u8>]) -> impl Iterator<Item = &Vec<u8>> {
    messages.iter().filter(|msg| wire::message_type(msg) == types::REQUEST)
}

fn is_answered(messages: &[Vec<u8>], id: u32) -> bool {
    messages.iter().any(|msg| wire::answered(msg) == Some(id))
}

fn is_refused(messages: &[Vec<u8>], id: u32) -> bool {
    messages.iter().any(|msg| wire::status_id(msg) == Some(id))
}

fn is_aborted(messages: &[Vec<u8>], id: u32) -> bool {
    let mut aborts = messages.iter().filter(|msg| wire::message_type(msg) == types::ABORT);
    aborts.any(|abort| wire::request_id(abort) == Some(id))
}

/// The label that a Request is for: the last two bytes of its prefix.
fn wanted(request: &[u8]) -> Option<u32> {
    let fec = wire::fec(request)?;
    fec.last_chunk::<2>().map(|bytes| u32::from(u16::from_be_bytes(*bytes)))
}
