//! What the owner of a cabinet sends: offers of its labels and a Withdraw of every third, or Requests and answers; and
//! in both cases what it is asked back.

use super::ask::Asks;
use support::wire::{self, prefix, types, Message};

/// What an owner has before it when it decides.
#[derive(Clone, Copy)]
pub struct View<'a> {
    pub accepted: &'a [Vec<u8>],
    pub secured: &'a [Vec<u8>],
    /// Labels that are given, and labels that the peer wants back.
    pub given: &'a [u32],
    pub asked_back: &'a [u32],
    /// The IDs of the open Requests, and of those that were sent and not acknowledged.
    pub open: &'a [u32],
    pub sent: &'a [u32],
    pub is_up: bool,
    /// The peer was told that there are no labels.
    pub is_stopping: bool,
    /// There are labels again, and the peer is still to be told.
    pub has_recovered: bool,
}

/// The plan of one cabinet.
pub enum Plan {
    Offers(Offers),
    Asks(Asks),
}

impl Plan {
    /// The next message to submit: a label that was asked back is released first.
    pub fn next(&self, view: &View) -> Option<Vec<u8>> {
        if let Some(label) = view.asked_back.first() {
            return Some(about(types::RELEASE, *label, 1_000 + label).bytes());
        }
        match self {
            Plan::Offers(offers) => offers.next(view),
            Plan::Asks(asks) => asks.next(view),
        }
    }

    /// True where there is nothing left to submit, nor to wait for.
    pub fn is_done(&self, view: &View) -> bool {
        let settled = match self {
            Plan::Offers(offers) => offers.next(view).is_none(),
            Plan::Asks(asks) => asks.is_done(view),
        };
        settled && view.asked_back.is_empty()
    }
}

/// The offers and withdrawals of one cabinet.
pub struct Offers {
    first: u32,
    labels: u32,
}

impl Offers {
    /// Offers of so many labels from the first.
    pub fn new(first: u32, labels: u32) -> Self {
        Offers { first, labels }
    }

    /// Every third label is withdrawn again.
    fn length(&self) -> u32 {
        self.labels + self.labels / 3
    }

    /// The message at the place that the plan has come to.
    fn next(&self, view: &View) -> Option<Vec<u8>> {
        let planned = view.accepted.iter().filter(|msg| wire::message_type(msg) != types::RELEASE);
        let place = planned.count() as u32;
        let message = if place < self.labels {
            about(types::MAPPING, self.first + place, place)
        } else {
            about(types::WITHDRAW, self.first + 3 * place.saturating_sub(self.labels), place)
        };
        (place < self.length()).then(|| message.bytes())
    }
}

/// A message about a label of this cabinet or of the other.
pub fn about(message_type: u16, label: u32, message_id: u32) -> Message {
    Message::new(message_type, message_id).fec(&prefix(label as u16)).label(label)
}

/// A message in words.
pub fn in_words(msg: &[u8]) -> String {
    let of_label = |name: &str| format!("{name} of label {}", wire::label(msg).unwrap_or(0));
    let answered = wire::request_id(msg).map_or(String::new(), |id| format!(" for Request {id}"));
    match wire::message_type(msg) {
        types::MAPPING => of_label("Mapping") + &answered,
        types::WITHDRAW => of_label("Withdraw"),
        types::RELEASE => of_label("Release"),
        types::REQUEST => format!("Request {}", wire::message_id(msg)),
        types::ABORT => format!("Abort{answered}"),
        _ => match wire::status(msg) {
            Some(wire::NO_RESOURCES) => {
                format!("'No label resources' for Request {}", wire::status_id(msg).unwrap_or(0))
            }
            _ => "'Label resources available'".to_string(),
        },
    }
}
