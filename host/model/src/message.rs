//! The message reader: one walk over the TLVs, left at the first fault; and the kinds a message may have.

use crate::octets::{be16, be32};
use cabinet::{has, Message};

/// Message types, the U bit masked off.
pub mod types {
    pub const NOTIFICATION: u32 = 0x0001;
    pub const INITIALIZATION: u32 = 0x0200;
    pub const KEEPALIVE: u32 = 0x0201;
    pub const ADDRESS: u32 = 0x0300;
    pub const ADDRESS_WITHDRAW: u32 = 0x0301;
    pub const MAPPING: u32 = 0x0400;
    pub const REQUEST: u32 = 0x0401;
    pub const WITHDRAW: u32 = 0x0402;
    pub const RELEASE: u32 = 0x0403;
    pub const ABORT: u32 = 0x0404;
}

/// TLV types, U and F masked off.
pub mod tlvs {
    pub const FEC: u16 = 0x0100;
    pub const LABEL: u16 = 0x0200;
    pub const FT_PROTECTION: u16 = 0x0203;
    pub const STATUS: u16 = 0x0300;
    pub const PARAMETERS: u16 = 0x0500;
    pub const FT_SESSION: u16 = 0x0503;
    pub const FT_ACK: u16 = 0x0504;
    pub const REQUEST_ID: u16 = 0x0600;
}

/// Kinds of message that are kept for sending.
pub mod kinds {
    pub const MAPPING: u32 = 1;
    pub const WITHDRAW: u32 = 2;
    pub const RELEASE: u32 = 3;
    pub const ADDRESS: u32 = 4;
    pub const ADDRESS_WITHDRAW: u32 = 5;
    pub const RESOURCES_AVAILABLE: u32 = 6;
    pub const REQUEST: u32 = 7;
    pub const ABORT: u32 = 8;
    pub const NO_RESOURCES: u32 = 9;
}

/// A second in milliseconds.
pub const SECOND: u32 = 1_000;
const LARGEST_LABEL: u32 = 0xF_FFFF;
const STATUS_E: u32 = 0x8000_0000;
const STATUS_CODE: u32 = 0x3FFF_FFFF;
const NO_LABEL_RESOURCES: u32 = 0x0000_000E;
const LABEL_RESOURCES_AVAILABLE: u32 = 0x0000_000F;
/// Type, length and message ID.
const HEAD: usize = 8;
/// The length of FT Session as RFC 3479 has it: flags, two zeros, reconnect timeout, recovery time. The draft's has 4.
pub const PUBLISHED_SESSION: usize = 12;

/// Reads a whole message; none where it is malformed in any phase.
pub fn read(msg: &[u8]) -> Option<Message> {
    if msg.len() < HEAD || usize::from(be16(msg, 2)) + 4 != msg.len() {
        return None;
    }
    let mut message =
        Message { message_type: u32::from(be16(msg, 0) & 0x7FFF), message_id: be32(msg, 4), ..Message::default() };
    let mut at = HEAD;
    while at < msg.len() {
        at = take_tlv(&mut message, msg, at)?;
    }
    message.kind = kind(&message);
    bears_what_it_must(&message).then_some(message)
}

/// Takes in the TLV that starts at a place and gives its end; none at a fault.
#[inline]
fn take_tlv(message: &mut Message, msg: &[u8], at: usize) -> Option<usize> {
    let head = msg.get(at..at + 4)?;
    let start = at + 4;
    let end = start + usize::from(be16(head, 2));
    let value = msg.get(start..end)?;
    match be16(head, 0) & 0x3FFF {
        tlvs::FEC => {
            listed(message, has::FEC, value, value.len())?;
            (message.fec_start, message.fec_end) = (start as u32, end as u32);
        }
        tlvs::LABEL => {
            message.label = number(message, has::LABEL, value).filter(|label| *label <= LARGEST_LABEL)?;
        }
        tlvs::STATUS => {
            let status = listed(message, has::STATUS, value, 10)?;
            (message.status, message.status_id) = (be32(status, 0), be32(status, 4));
        }
        tlvs::PARAMETERS => {
            let parameters = listed(message, has::PARAMETERS, value, 14)?;
            message.keepalive_time = u32::from(be16(parameters, 2));
            message.max_pdu_length = u32::from(be16(parameters, 6));
        }
        tlvs::FT_SESSION => {
            let published = value.len() == PUBLISHED_SESSION;
            let session = listed(message, has::FT_SESSION, value, if published { PUBLISHED_SESSION } else { 4 })?;
            message.reconnect = u32::from(session[0] >> 7);
            message.timeout = if published { be32(session, 4) } else { u32::from(be16(session, 2)) };
            message.published = u32::from(published);
        }
        tlvs::FT_PROTECTION => message.number = number(message, has::FT_PROTECTION, value)?,
        tlvs::FT_ACK => message.ack = number(message, has::FT_ACK, value)?,
        tlvs::REQUEST_ID => message.request_id = number(message, has::REQUEST_ID, value)?,
        _ => {}
    }
    Some(end)
}

/// The value of a listed TLV; none where its length is wrong or the message has it already.
#[inline]
fn listed<'a>(message: &mut Message, bit: u32, value: &'a [u8], length: usize) -> Option<&'a [u8]> {
    let again = message.has & bit != 0;
    message.has |= bit;
    (!again && value.len() == length).then_some(value)
}

/// The number that a listed TLV of four bytes bears.
#[inline]
fn number(message: &mut Message, bit: u32, value: &[u8]) -> Option<u32> {
    listed(message, bit, value, 4).map(|value| be32(value, 0))
}

fn kind(message: &Message) -> u32 {
    match message.message_type {
        types::MAPPING => kinds::MAPPING,
        types::WITHDRAW => kinds::WITHDRAW,
        types::RELEASE => kinds::RELEASE,
        types::ADDRESS => kinds::ADDRESS,
        types::ADDRESS_WITHDRAW => kinds::ADDRESS_WITHDRAW,
        types::REQUEST => kinds::REQUEST,
        types::ABORT => kinds::ABORT,
        types::NOTIFICATION if !is_fatal(message) => notification_kind(message),
        _ => 0,
    }
}

/// The kind of a Notification whose E bit is not set; without a Status TLV its code is 0.
fn notification_kind(message: &Message) -> u32 {
    match message.status & STATUS_CODE {
        NO_LABEL_RESOURCES => kinds::NO_RESOURCES,
        LABEL_RESOURCES_AVAILABLE => kinds::RESOURCES_AVAILABLE,
        _ => 0,
    }
}

/// The timeout of an Init in milliseconds, whatever form it has.
pub fn milliseconds(init: &Message) -> u32 {
    if init.published == 1 {
        init.timeout
    } else {
        init.timeout * SECOND
    }
}

/// True where the message has a Status TLV with its E bit set.
pub fn is_fatal(message: &Message) -> bool {
    message.status & STATUS_E != 0
}

/// Mapping needs FEC and label, Abort FEC and Request's ID, Withdraw, Release and Request FEC.
fn bears_what_it_must(message: &Message) -> bool {
    let needed = match message.kind {
        kinds::MAPPING => has::FEC | has::LABEL,
        kinds::ABORT => has::FEC | has::REQUEST_ID,
        kinds::WITHDRAW | kinds::RELEASE | kinds::REQUEST => has::FEC,
        _ => 0,
    };
    message.has & needed == needed
}

/// True for the kinds that name a label: Mapping, Withdraw and Release.
pub fn kind_names_label(kind: u32) -> bool {
    matches!(kind, kinds::MAPPING | kinds::WITHDRAW | kinds::RELEASE)
}

/// True where a sound message may be queued: one of the nine kinds, no FT TLV, a label where its kind names one.
pub fn may_be_queued(message: &Message) -> bool {
    message.kind != 0
        && message.has & has::FT == 0
        && (!kind_names_label(message.kind) || message.has & has::LABEL != 0)
}

/// The value of the FEC TLV; empty where there is none.
pub fn fec<'a>(message: &Message, msg: &'a [u8]) -> &'a [u8] {
    &msg[message.fec_start as usize..message.fec_end as usize]
}

/// The message ID of the Request that a received message answers: a Mapping names it, or a Notification in its Status.
pub fn answered(message: &Message) -> Option<u32> {
    let (bit, id) = match message.message_type {
        types::MAPPING => (has::REQUEST_ID, message.request_id),
        types::NOTIFICATION => (has::STATUS, message.status_id),
        _ => return None,
    };
    (message.has & bit != 0).then_some(id)
}

/// The label that a slot shows for a message: its own for the kinds that name one, else 0xFFFFFFFF.
pub fn slot_label(message: &Message) -> u32 {
    if kind_names_label(message.kind) {
        message.label
    } else {
        u32::MAX
    }
}
