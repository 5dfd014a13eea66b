//! Why a message is malformed, in words. That it is malformed the library says; this looks for the first reason, in the
//! order in which the paper's rules are judged.

use crate::names;
use support::wire::{self, tlvs, types};

const HEAD: usize = 8;
const TLV_HEAD: usize = 4;
const LARGEST_LABEL: u32 = 1_048_575;

/// The lengths that a listed TLV may have, where not every length will do.
const LENGTHS: [(u16, &[usize]); 7] = [
    (tlvs::LABEL, &[4]),
    (tlvs::STATUS, &[10]),
    (tlvs::PARAMETERS, &[14]),
    (tlvs::FT_SESSION, &[4, 12]),
    (tlvs::FT_PROTECTION, &[4]),
    (tlvs::FT_ACK, &[4]),
    (tlvs::REQUEST_ID, &[4]),
];

/// What a message of a type must bear.
const BORNE: [(u16, &[u16]); 5] = [
    (types::MAPPING, &[tlvs::FEC, tlvs::LABEL]),
    (types::REQUEST, &[tlvs::FEC]),
    (types::WITHDRAW, &[tlvs::FEC]),
    (types::RELEASE, &[tlvs::FEC]),
    (types::ABORT, &[tlvs::FEC, tlvs::REQUEST_ID]),
];

/// The first reason for which a message is malformed; none where there is none.
pub fn reason(msg: &[u8]) -> Option<String> {
    if msg.len() < HEAD {
        return Some(format!("its {} bytes are no whole head", msg.len()));
    }
    let length = usize::from(u16::from_be_bytes([msg[2], msg[3]])) + 4;
    if length != msg.len() {
        return Some(format!("its length says {length} bytes, and it has {}", msg.len()));
    }
    let mut found: Vec<u16> = Vec::new();
    let mut end = HEAD;
    for (tlv_type, whole) in wire::parts(msg) {
        if let Some(reason) = of_tlv(tlv_type, &whole[TLV_HEAD..], &found) {
            return Some(reason);
        }
        found.push(tlv_type);
        end += whole.len();
    }
    cut_off(&msg[end..]).or_else(|| lacking(wire::message_type(msg) & 0x7FFF, &found))
}

/// What is wrong with a TLV that is whole: its length, that it stands a second time, its label.
fn of_tlv(tlv_type: u16, value: &[u8], found: &[u16]) -> Option<String> {
    let name = names::tlv(tlv_type);
    let lengths = LENGTHS.iter().find(|(listed, _)| *listed == tlv_type).map(|(_, lengths)| *lengths);
    if let Some(lengths) = lengths.filter(|lengths| !lengths.contains(&value.len())) {
        let right: Vec<String> = lengths.iter().map(usize::to_string).collect();
        return Some(format!("its {name} has length {}, not {}", value.len(), right.join(" or ")));
    }
    if (tlv_type == tlvs::FEC || lengths.is_some()) && found.contains(&tlv_type) {
        return Some(format!("its {name} stands twice"));
    }
    let label = value.try_into().map(u32::from_be_bytes).ok().filter(|_| tlv_type == tlvs::LABEL)?;
    (label > LARGEST_LABEL).then(|| format!("its label {label} is above {LARGEST_LABEL}"))
}

/// What stands behind the last whole TLV.
fn cut_off(rest: &[u8]) -> Option<String> {
    match rest {
        [] => None,
        [high, low, long, length, value @ ..] => {
            let tlv_type = u16::from_be_bytes([*high, *low]) & 0x3FFF;
            let says = u16::from_be_bytes([*long, *length]);
            let name = names::tlv(tlv_type);
            Some(format!("its TLV 0x{tlv_type:04x} {name} has length {says}, and {} bytes are left", value.len()))
        }
        _ => Some(format!("{} bytes behind its TLVs are no TLV", rest.len())),
    }
}

/// A TLV that a message of its type must bear, and does not.
fn lacking(message_type: u16, found: &[u16]) -> Option<String> {
    let (_, borne) = BORNE.iter().find(|(known, _)| *known == message_type)?;
    let missing = borne.iter().find(|tlv_type| !found.contains(tlv_type))?;
    Some(format!("it has no {}", names::tlv(*missing)))
}
