//! What the owner of an end submits: messages about its labels, good for the most part.

use super::habits::{Customs, Habits};
use super::requests;
use crate::entries::{entry_of, fec};
use crate::random::Random;
use crate::stored::{Stored, PLACES, STOPPED};
use crate::wire::{
    label, message_id, message_type, prefix, request_id, tlvs, types, Message, NO_RESOURCES, RESOURCES_AVAILABLE,
};
use cabinet::{phase, Session};

/// An owner answers one of so many Requests of the peer's, the latest.
const LATEST: usize = 6;

/// What an owner knows when it decides.
pub struct Known<'a> {
    pub stored: &'a Stored,
    pub session: Session,
    /// The messages that it has secured.
    pub secured: &'a [Vec<u8>],
}

/// A label of the list that has one of the codes, of those that the owners speak of.
fn listed(random: &mut Random, habits: &Habits, stored: &Stored, codes: &[u32]) -> Option<u32> {
    let meant = stored.listed().filter(|(label, code, _)| *label <= habits.last_label && codes.contains(code));
    let labels: Vec<u32> = meant.map(|(label, _, _)| label).collect();
    (!labels.is_empty()).then(|| random.pick(&labels))
}

fn about(message_type: u16, label: u32, serial: u32) -> Message {
    Message::new(message_type, serial).fec(&prefix(label as u16)).label(label)
}

/// A Mapping of a label: of the FEC that it has where it is given, in most cases; else of one of a few, which some
/// labels share, and of which one is no prefix.
fn offer(random: &mut Random, stored: &Stored, label: u32, serial: u32) -> Message {
    let fecs = [&prefix(label as u16)[..], &fec(8, 0x0A00_0000), &fec(0, 0), &fec(17, 0xC0A8_FFFF), &[3, 0, 1]];
    let given = stored.listed().find(|(listed, code, _)| *listed == label && *code == 1).map(|(_, _, entry)| entry);
    let same: Vec<&[u8]> = fecs.iter().copied().filter(|fec| given == Some(entry_of(fec))).collect();
    let fec = if same.is_empty() || random.percent(10) { random.pick(&fecs) } else { random.pick(&same) };
    Message::new(types::MAPPING, serial).fec(fec).label(label)
}

/// The next message that an owner submits.
pub fn submission(random: &mut Random, habits: &Habits, known: &Known, serial: u32) -> Vec<u8> {
    if random.percent(habits.asks) {
        let message = about_requests(random, habits, known, serial);
        return padded(random, message);
    }
    let stored = known.stored;
    if let Some(label) = just_released(known).filter(|_| random.percent(habits.renews)) {
        return offer(random, stored, label, serial).bytes();
    }
    let any = random.between(16, habits.last_label as usize) as u32;
    let about = |message_type, label| about(message_type, label, serial);
    let releasable = listed(random, habits, stored, habits.customs.releasable());
    let choices = if random.percent(habits.others) { 20 } else { 14 };
    let message = match (random.below(choices), releasable) {
        (0..=6, _) if habits.customs.may_offer(stored, any) => offer(random, stored, any, serial),
        (7..=10, _) if habits.customs != Customs::Renews => {
            about(types::WITHDRAW, listed(random, habits, stored, &[1]).unwrap_or(any))
        }
        (7..=13, Some(label)) => about(types::RELEASE, label),
        (14, _) => Message::new(types::ADDRESS_WITHDRAW, serial).tlv(tlvs::ADDRESS_LIST, &[0, 1, 10, 0, 0, 1]),
        (15, _) => Message::new(types::NOTIFICATION, serial).status(RESOURCES_AVAILABLE),
        (16, _) => return refused(random, serial),
        _ => Message::new(types::ADDRESS, serial).tlv(tlvs::ADDRESS_LIST, &[0, 1, 10, 0, 0, 2]),
    };
    padded(random, message)
}

/// The label of the Release that was secured last, if nothing was secured after it and the label is free here: the peer
/// may still list it, until the ACK of its Release comes.
fn just_released(known: &Known) -> Option<u32> {
    let last = known.secured.last().filter(|msg| message_type(msg) == types::RELEASE)?;
    let is_given =
        |label: &u32| known.stored.listed().any(|(listed, code, _)| listed == *label && !(3..=6).contains(&code));
    label(last).filter(|label| !is_given(label))
}

/// The message's bytes, at times many more than it needs.
fn padded(random: &mut Random, message: Message) -> Vec<u8> {
    let length = if random.percent(10) { random.between(60, 480) } else { 0 };
    message.padded_to(length).bytes()
}

/// One of the values, or the one given where there is none.
fn one_of(random: &mut Random, values: &[u32], otherwise: u32) -> u32 {
    if values.is_empty() {
        otherwise
    } else {
        random.pick(values)
    }
}

/// A Request or its Abort, an answer to a Request of the peer's, or word on whether there are labels to give. Every
/// label of both sides has a word left beside the open Requests, and one is left for a label that moves.
fn about_requests(random: &mut Random, habits: &Habits, known: &Known, serial: u32) -> Message {
    let label = random.between(16, habits.last_label as usize) as u32;
    let open = known.stored.open_requests();
    if random.percent(habits.aborts) {
        let aborted = given_up(random, known.stored, &open).unwrap_or(serial);
        return Message::new(types::ABORT, serial).fec(&prefix(1)).request_id(aborted);
    }
    let room = open.len() + habits.words() + 1 < PLACES;
    let refused = known.session.phase != phase::UP_FT || known.stored.marks & STOPPED != 0;
    let may_ask = room && (!refused || random.percent(20));
    let peers = requests::ids(known.secured);
    let id = one_of(random, &peers[peers.len().saturating_sub(LATEST)..], serial);
    match random.below(20) {
        0..=9 if may_ask => {
            let id = asked_by(random, known.stored, serial);
            Message::new(types::REQUEST, id).fec(&prefix(label as u16))
        }
        10..=15 if habits.customs.may_offer(known.stored, label) => {
            offer(random, known.stored, label, serial).request_id(id)
        }
        16..=17 => Message::new(types::NOTIFICATION, serial).status_of(NO_RESOURCES, id),
        _ => Message::new(types::NOTIFICATION, serial).status_of(RESOURCES_AVAILABLE, id),
    }
}

/// The ID of a Request: a new one, or at times that of an earlier one, whose Abort may still be held.
fn asked_by(random: &mut Random, stored: &Stored, serial: u32) -> u32 {
    let aborts = stored.queue.iter().filter(|queued| queued.kind == 8);
    let aborted: Vec<u32> = aborts.filter_map(|abort| request_id(&abort.bytes)).collect();
    match random.below(20) {
        0..=1 => one_of(random, &stored.ids, serial),
        2..=4 => one_of(random, &aborted, serial),
        _ => serial,
    }
}

/// An open Request, mostly one that is still held.
fn given_up(random: &mut Random, stored: &Stored, open: &[u32]) -> Option<u32> {
    let held = stored.queue.iter().filter(|queued| queued.kind == 7).map(|queued| message_id(&queued.bytes));
    let held: Vec<u32> = held.filter(|id| open.contains(id)).collect();
    let choice = if held.is_empty() || random.percent(20) { open } else { &held };
    (!choice.is_empty()).then(|| random.pick(choice))
}

/// A message that submit refuses whatever is stored.
fn refused(random: &mut Random, serial: u32) -> Vec<u8> {
    let address = Message::new(types::ADDRESS, serial);
    match random.below(5) {
        0 => address.padded_to(481).bytes(),
        1 => address.ack(1).bytes(),
        2 => Message::new(types::MAPPING, serial).fec(&prefix(1)).label(15).bytes(),
        3 => Message::new(types::KEEPALIVE, serial).bytes(),
        _ => address.label(1_048_576).bytes(),
    }
}
