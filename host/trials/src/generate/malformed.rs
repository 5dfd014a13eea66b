//! Messages and PDUs with a fault in their TLVs or lengths.

use super::messages;
use crate::random::Random;
use crate::stored::Stored;
use crate::wire::{tlvs, Message};

/// A message with one fault in its TLVs or lengths.
pub fn message(random: &mut Random, mut message: Message) -> Vec<u8> {
    let listed = [
        tlvs::FEC,
        tlvs::LABEL,
        tlvs::STATUS,
        tlvs::PARAMETERS,
        tlvs::FT_SESSION,
        tlvs::FT_PROTECTION,
        tlvs::FT_ACK,
        tlvs::REQUEST_ID,
    ];
    match random.below(9) {
        0 if !message.tlvs.is_empty() => {
            let again = message.tlvs[random.below(message.tlvs.len())].clone();
            message.tlvs.push(again);
        }
        1 => message = message.label(random.pick(&[1_048_576, 0x8000_0010, u32::MAX])),
        2 => {
            let value = vec![0; random.between(0, 20)];
            message = message.tlv(random.pick(&listed), &value);
        }
        3 if !message.tlvs.is_empty() => {
            let at = random.below(message.tlvs.len());
            message.tlvs.remove(at);
        }
        4 if !message.tlvs.is_empty() => {
            let at = random.below(message.tlvs.len());
            message.tlvs[at].1.pop();
        }
        5 => {
            message.tlvs.retain(|(tlv_type, _)| tlv_type & 0x3FFF != tlvs::FT_SESSION);
            let length = random.pick(&[0, 2, 3, 5, 6, 8, 8, 10, 11, 13, 16]);
            message = message.tlv(tlvs::FT_SESSION, &random.bytes(length));
        }
        _ => return wrong_lengths(random, message.bytes()),
    }
    message.bytes()
}

/// Bytes whose lengths do not add up.
fn wrong_lengths(random: &mut Random, mut bytes: Vec<u8>) -> Vec<u8> {
    match random.below(6) {
        0 => bytes.truncate(random.between(0, bytes.len() - 1)),
        1 => bytes.extend(random.bytes(3)),
        2 => bytes[3] = bytes[3].wrapping_add(random.pick(&[1, 4, 0xFC, 0xFF])),
        3 if bytes.len() >= 12 => bytes[11] = bytes[11].wrapping_add(random.pick(&[1, 2, 4, 0xFF])),
        4 => return random_tlvs(random, &bytes),
        _ => {
            let at = random.below(bytes.len());
            bytes[at] ^= 1 << random.below(8);
        }
    }
    bytes
}

/// The message's type and ID before bytes by chance, with the right length of the whole.
fn random_tlvs(random: &mut Random, bytes: &[u8]) -> Vec<u8> {
    let mut soup = bytes[..8].to_vec();
    let length = random.between(0, 60);
    soup.extend(random.bytes(length));
    for at in (8..soup.len()).step_by(8) {
        soup[at] &= 0xC7;
    }
    let length = (soup.len() - 4) as u16;
    soup[2..4].copy_from_slice(&length.to_be_bytes());
    soup
}

/// A PDU of some messages, at times with a fault in its head or its lengths.
pub fn pdu(random: &mut Random, stored: &Stored) -> Vec<u8> {
    let count = random.pick(&[0, 1, 1, 2, 3, 12]);
    let messages: Vec<Vec<u8>> = (0..count).map(|_| messages::any(random, stored)).collect();
    let mut pdu = crate::wire::pdu(random.u32(), &messages);
    match random.below(12) {
        0 => pdu[1] = random.u8(),
        1 => pdu[3] = pdu[3].wrapping_add(random.pick(&[1, 4, 0xFF])),
        2 => pdu.truncate(random.between(0, pdu.len())),
        3 => pdu.extend(random.bytes(2)),
        4 => {
            pdu.truncate(random.between(0, 12));
            if pdu.len() >= 4 {
                pdu[3] = (pdu.len() - 4) as u8;
                pdu[2] = 0;
            }
        }
        5 if pdu.len() > 14 => pdu[13] = random.u8(),
        _ => {}
    }
    pdu
}
