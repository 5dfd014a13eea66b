//! Inits and their FT Session, in both forms.

use super::messages::{ack, any_type, finished, STATUSES};
use super::states;
use crate::random::Random;
use crate::stored::Stored;
use crate::wire::{types, Message};

/// An Init: with or without parameters, FT Session and FT ACK, resuming or not.
pub fn init(random: &mut Random, stored: &Stored) -> Vec<u8> {
    let mut message = Message::new(types::INITIALIZATION, random.u32());
    if random.percent(95) {
        let same = random.percent(85);
        let time = if same { stored.keepalive_time } else { random.u16() };
        let pdu = if same || random.percent(50) { stored.max_pdu_length } else { random.u16() };
        message = message.parameters(time, pdu);
    }
    if random.percent(90) {
        message = ft_session(random, message, 75);
    }
    if random.percent(85) {
        message = message.ack(ack(random, stored));
    }
    if random.percent(5) {
        message = message.protection(random.u32());
    }
    if random.percent(5) {
        message = message.status(random.pick(&STATUSES));
    }
    if random.percent(4) {
        message.message_type = any_type(random);
    }
    finished(random, message)
}

/// FT Session in either form, which asks to resume in so many of a hundred cases; at times with bits that nobody reads, a
/// recovery time among them.
pub fn ft_session(random: &mut Random, message: Message, resumes: usize) -> Message {
    let reconnect = random.percent(resumes);
    let mut message = if random.percent(50) {
        message.ft_session(reconnect, states::seconds(random))
    } else {
        message.ft_session_published(reconnect, states::milliseconds(random))
    };
    if let Some((_, value)) = message.tlvs.last_mut().filter(|_| random.percent(40)) {
        let (published, others) = (value.len() == 12, random.bytes(12));
        value[0] = value[0] & 0x80 | others[0] & 0x7F;
        value[1] = others[1];
        if published {
            value[2..4].copy_from_slice(&others[2..4]);
            value[8..].copy_from_slice(&others[8..]);
        }
    }
    message
}
