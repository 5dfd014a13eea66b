//! Messages of every type, good and bad, about the labels and numbers of a given state.

use super::inits::{ft_session, init};
use super::{fecs, malformed, states};
use crate::random::Random;
use crate::stored::{steps_after, Queued, Stored, NO_LABEL};
use crate::wire::{tlvs, types, Message, NO_RESOURCES, RESOURCES_AVAILABLE};

const TYPES: [u16; 10] = [
    types::NOTIFICATION,
    types::INITIALIZATION,
    types::KEEPALIVE,
    types::ADDRESS,
    types::ADDRESS_WITHDRAW,
    types::MAPPING,
    types::REQUEST,
    types::WITHDRAW,
    types::RELEASE,
    types::ABORT,
];
/// The type of each kind, from kind 1.
const QUEUED: [u16; 9] = [
    types::MAPPING,
    types::WITHDRAW,
    types::RELEASE,
    types::ADDRESS,
    types::ADDRESS_WITHDRAW,
    types::NOTIFICATION,
    types::REQUEST,
    types::ABORT,
    types::NOTIFICATION,
];
/// Kind 6, with F clear and set; kind 9.
const AVAILABLE: [u32; 2] = [RESOURCES_AVAILABLE, RESOURCES_AVAILABLE | 0x4000_0000];
const NONE_LEFT: [u32; 2] = [NO_RESOURCES, NO_RESOURCES | 0x4000_0000];
pub(super) const STATUSES: [u32; 11] = [
    AVAILABLE[0],
    AVAILABLE[0],
    AVAILABLE[1],
    NONE_LEFT[0],
    NONE_LEFT[1],
    RESOURCES_AVAILABLE | 0x8000_0000,
    0x0000_000D,
    0x0000_0010,
    0x8000_000A,
    0xC000_0014,
    0,
];

/// A label that the state lists with one of the codes, or any label.
fn label(random: &mut Random, stored: &Stored, codes: &[u32]) -> u32 {
    let listed: Vec<u32> = stored.labels.iter().copied().filter(|word| codes.contains(&(word >> 20))).collect();
    match random.below(20) {
        0 => random.below(16) as u32,
        1..=3 => states::label(random),
        4..=6 => random.between(200_000, 200_010) as u32,
        _ if listed.is_empty() => states::label(random),
        _ => random.pick(&listed) & 0xF_FFFF,
    }
}

fn codes_for(random: &mut Random, message_type: u16, sending: bool) -> &'static [u32] {
    let ours: [&[u32]; 6] = [&[1], &[2], &[8], &[9], &[1, 2, 8, 9], &[]];
    let theirs: [&[u32]; 6] = [&[3], &[4], &[5], &[6], &[3, 4, 5, 6], &[]];
    if (message_type == types::RELEASE) == sending {
        random.pick(&theirs)
    } else {
        random.pick(&ours)
    }
}

/// A message ID: mostly of a Request that the state has open, or of one that it had, 0, or any.
fn id(random: &mut Random, stored: &Stored) -> u32 {
    let open = stored.open_requests();
    match random.below(20) {
        0..=1 => 0,
        2..=4 => random.pick(&stored.ids),
        5 => random.u32(),
        6..=8 => states::id(random),
        _ if open.is_empty() => states::id(random),
        _ => random.pick(&open),
    }
}

/// The message's own ID; a Request's is mostly one that is not open.
fn own_id(random: &mut Random, stored: &Stored, message_type: u16) -> u32 {
    match random.below(10) {
        0..=2 if message_type == types::REQUEST => id(random, stored),
        3..=6 if message_type == types::REQUEST => states::id(random),
        _ => random.u32(),
    }
}

/// A message of a type with the TLVs that belong to it, none of them an FT TLV.
fn body(random: &mut Random, stored: &Stored, message_type: u16, sending: bool) -> Message {
    let message = Message::new(message_type, own_id(random, stored, message_type));
    let named = id(random, stored);
    let often = match message_type {
        types::ABORT => 100,
        types::MAPPING => 40,
        _ => 4,
    };
    let message = if random.percent(often) { message.request_id(named) } else { message };
    match message_type {
        types::NOTIFICATION if random.percent(95) => message.status_of(random.pick(&STATUSES), named),
        types::ADDRESS | types::ADDRESS_WITHDRAW => message.tlv(tlvs::ADDRESS_LIST, &[0, 1, 10, 0, 0, 1]),
        types::MAPPING | types::WITHDRAW | types::RELEASE => {
            let codes = codes_for(random, message_type, sending);
            let label = label(random, stored, codes);
            let named = message_type == types::MAPPING || random.percent(if sending { 90 } else { 60 });
            if named {
                message.fec(&fecs::of_state(random, stored, Some(label))).label(label)
            } else {
                message.fec(&fecs::of_state(random, stored, None))
            }
        }
        types::REQUEST | types::ABORT => message.fec(&fecs::any(random)),
        _ => message,
    }
}

/// A message that the send store may hold, with what its slot shows.
pub fn queued(random: &mut Random, stored: &Stored) -> Queued {
    let kind = random.between(1, QUEUED.len()) as u8;
    let message_type = QUEUED[usize::from(kind) - 1];
    let mut message = Message::new(message_type, random.u32());
    let mut label = NO_LABEL;
    match kind {
        1..=3 => {
            let code: &[u32] = [&[1][..], &[2, 9], &[5]][usize::from(kind) - 1];
            label = self::label(random, stored, code);
            message = message.fec(&fecs::of_state(random, stored, Some(label))).label(label);
        }
        6 => message = message.status_of(random.pick(&AVAILABLE), id(random, stored)),
        9 => message = message.status_of(random.pick(&NONE_LEFT), id(random, stored)),
        _ => message = body(random, stored, message_type, true),
    }
    if random.percent(20) {
        message = with_label_beside(random, message, kind);
    }
    let length = random.pick(&[0, 0, 0, 40, 77, 479, 480]);
    Queued { kind, label, bytes: message.padded_to(length).bytes() }
}

/// Kinds without a label may bear one that counts for nothing.
fn with_label_beside(random: &mut Random, message: Message, kind: u8) -> Message {
    if kind > 3 {
        message.label(random.below(1_048_576) as u32)
    } else {
        message
    }
}

/// Sets bits that a reader ignores, on the message and on its TLVs.
pub(super) fn with_ignored_bits(random: &mut Random, mut message: Message) -> Message {
    message.message_type |= random.pick(&[0, 0x8000]);
    for (tlv_type, _) in &mut message.tlvs {
        *tlv_type |= random.pick(&[0, 0x4000, 0x8000, 0xC000]);
    }
    message
}

pub(super) fn shuffled(random: &mut Random, mut message: Message) -> Message {
    random.shuffle(&mut message.tlvs);
    message
}

pub(super) fn any_type(random: &mut Random) -> u16 {
    match random.below(20) {
        0 => random.u16() & 0x7FFF,
        _ => random.pick(&TYPES),
    }
}

/// A message for submit: mostly one that may be queued, at times one byte too long or of a wrong sort.
pub fn submission(random: &mut Random, stored: &Stored) -> Vec<u8> {
    let message_type = if random.percent(85) { random.pick(&QUEUED) } else { any_type(random) };
    let mut message = body(random, stored, message_type, true);
    if random.percent(6) {
        message = ft_tlv_at_random(random, message);
    }
    if random.percent(30) {
        message = message.padded_to(random.pick(&[100, 479, 480, 481, 600]));
    }
    finished(random, message)
}

fn ft_tlv_at_random(random: &mut Random, message: Message) -> Message {
    match random.below(3) {
        0 => ft_session(random, message, 50),
        1 => message.protection(random.u32()),
        _ => message.ack(random.u32()),
    }
}

/// A message for receive: protected or not, in turn or not, with an ACK that is right or not.
pub fn received(random: &mut Random, stored: &Stored) -> Vec<u8> {
    if random.percent(15) {
        return by_fec(random, stored);
    }
    let message_type = if random.percent(80) { random.pick(&QUEUED) } else { any_type(random) };
    let mut message = body(random, stored, message_type, false);
    if random.percent(70) {
        message = message.protection(protection(random, stored));
    }
    if random.percent(40) {
        message = message.ack(ack(random, stored));
    }
    if random.percent(3) {
        message = ft_session(random, message, 50);
    }
    if random.percent(10) {
        message = message.padded_to(random.between(8, 4000));
    }
    finished(random, message)
}

/// A message in turn that does something by its FEC: a Mapping of a label that the peer gave, mostly with another FEC
/// than it has, or a Withdraw or Release of a prefix; with the protection that the label wants, in most cases.
fn by_fec(random: &mut Random, stored: &Stored) -> Vec<u8> {
    let theirs: Vec<u32> = stored.labels.iter().copied().filter(|word| (3..=6).contains(&(word >> 20))).collect();
    let id = id(random, stored);
    let (message, unprotected) = if theirs.is_empty() || random.percent(40) {
        let message_type = random.pick(&[types::WITHDRAW, types::RELEASE]);
        (Message::new(message_type, 1).fec(&fecs::of_state(random, stored, None)), random.percent(30))
    } else {
        let word = random.pick(&theirs);
        let message = Message::new(types::MAPPING, 1).fec(&fecs::any(random)).label(word & 0xF_FFFF);
        let answers = random.percent(50);
        (if answers { message.request_id(id) } else { message }, word >> 20 == 6)
    };
    let number = steps_after(stored.secured, 1);
    let message = if unprotected == random.percent(95) { message } else { message.protection(number) };
    let message = if random.percent(30) { message.ack(ack(random, stored)) } else { message };
    finished(random, message)
}

/// The number that is due in most cases; of a peer that leaves out messages, one of those after it, near the end of
/// them at times; or another.
fn protection(random: &mut Random, stored: &Stored) -> u32 {
    match random.below(20) {
        0 => 0,
        1 => stored.secured,
        2 => random.u32(),
        3 => stored.secured.wrapping_add(1),
        4..=6 => steps_after(stored.secured, random.between(1, 70) as u64),
        7..=8 => steps_after(stored.secured, random.pick(&[2, 63, 64, 65])),
        _ => steps_after(stored.secured, 1),
    }
}

/// Numbers around those that the held messages bear.
pub(super) fn ack(random: &mut Random, stored: &Stored) -> u32 {
    match random.below(20) {
        0 => 0,
        1 => stored.released.wrapping_sub(1),
        2 => steps_after(stored.issued, 1),
        3 => random.u32(),
        4..=6 => stored.released,
        7..=10 => stored.issued,
        _ => steps_after(stored.released, random.between(0, stored.queue.len()) as u64),
    }
}

/// A message that may be anything at all, for the reader.
pub fn any(random: &mut Random, stored: &Stored) -> Vec<u8> {
    match random.below(5) {
        0 => init(random, stored),
        1 => submission(random, stored),
        2 => received(random, stored),
        3 => {
            let message = body(random, stored, types::MAPPING, true);
            malformed::message(random, message)
        }
        _ => {
            let (message_type, sending) = (any_type(random), random.percent(50));
            let message = body(random, stored, message_type, sending);
            finished(random, message)
        }
    }
}

/// Bits that are ignored, another order of TLVs, and faults, each at times.
pub(super) fn finished(random: &mut Random, mut message: Message) -> Vec<u8> {
    if random.percent(15) {
        message = with_ignored_bits(random, message);
    }
    if random.percent(15) {
        message = shuffled(random, message);
    }
    if random.percent(6) {
        return malformed::message(random, message);
    }
    message.bytes()
}
