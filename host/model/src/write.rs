//! The writers: Init, KeepAlive, and a held message with its FT TLVs added at the end.

use crate::message::{tlvs, types, PUBLISHED_SESSION, SECOND};
use crate::octets::{put16, put32};
use cabinet::Opening;

const PROTOCOL_VERSION: u16 = 1;
/// U set and F clear; the peer may ignore the TLV.
const U_BIT: u16 = 0x8000;
const RECONNECT: u16 = 0x8000;
/// Bit A of the parameters, above D and PVLim.
const ON_DEMAND: u16 = 0x8000;

/// Of the flags that RFC 3479 adds the one that is set: labels are kept over a break.
const SAVE_STATE: u16 = 0x0008;

pub const FT_TLV: usize = 8;
pub const KEEPALIVE: usize = 8;
/// Init up to FT Session.
const PARAMETERS: usize = 26;

/// A proposed timeout, as the form of FT Session that bears it counts.
#[derive(Clone, Copy)]
pub enum Proposal {
    /// The draft's form.
    Seconds(u16),
    /// The published form.
    Milliseconds(u32),
}

impl Proposal {
    pub fn milliseconds(self) -> u32 {
        match self {
            Proposal::Seconds(seconds) => u32::from(seconds) * SECOND,
            Proposal::Milliseconds(milliseconds) => milliseconds,
        }
    }

    /// The length of an Init that bears it, without FT ACK.
    pub fn init(self) -> usize {
        PARAMETERS
            + match self {
                Proposal::Seconds(_) => FT_TLV,
                Proposal::Milliseconds(_) => 4 + PUBLISHED_SESSION,
            }
    }

    /// FT Session; R is set where state is kept.
    fn write(self, out: &mut [u8], kept: bool) {
        let reconnect = if kept { RECONNECT } else { 0 };
        put16(out, 0, U_BIT | tlvs::FT_SESSION);
        match self {
            Proposal::Seconds(seconds) => {
                put16(out, 2, 4);
                put16(out, 4, reconnect);
                put16(out, 6, seconds);
            }
            Proposal::Milliseconds(milliseconds) => {
                put16(out, 2, PUBLISHED_SESSION as u16);
                put16(out, 4, reconnect | SAVE_STATE);
                put16(out, 6, 0);
                put32(out, 8, milliseconds);
                put32(out, 12, 0);
            }
        }
    }
}

/// Writes an Init of exactly the length given: FT ACK follows where there is a number to bear, and R is then set.
pub fn init(out: &mut [u8], opening: &Opening, proposal: Proposal, ack: Option<u32>) {
    head(out, types::INITIALIZATION, opening.message_id);
    put16(out, 8, tlvs::PARAMETERS);
    put16(out, 10, 14);
    put16(out, 12, PROTOCOL_VERSION);
    put16(out, 14, opening.keepalive_time);
    put16(out, 16, if opening.on_demand { ON_DEMAND } else { 0 });
    put16(out, 18, opening.max_pdu_length);
    put32(out, 20, opening.receiver_lsr);
    put16(out, 24, opening.receiver_space);
    proposal.write(&mut out[PARAMETERS..], ack.is_some());
    if let Some(number) = ack {
        ft_tlv(&mut out[proposal.init()..], tlvs::FT_ACK, number);
    }
}

/// Writes a KeepAlive of exactly the length given, with FT ACK where there is a number to bear.
pub fn keepalive(out: &mut [u8], message_id: u32, ack: Option<u32>) {
    head(out, types::KEEPALIVE, message_id);
    if let Some(number) = ack {
        ft_tlv(&mut out[KEEPALIVE..], tlvs::FT_ACK, number);
    }
}

/// Writes a held message of exactly the length given, with FT Protection, then FT ACK where there is a number to bear.
pub fn protected(out: &mut [u8], msg: &[u8], number: u32, ack: Option<u32>) {
    out[..msg.len()].copy_from_slice(msg);
    put16(out, 2, (out.len() - 4) as u16);
    ft_tlv(&mut out[msg.len()..], tlvs::FT_PROTECTION, number);
    if let Some(acknowledged) = ack {
        ft_tlv(&mut out[msg.len() + FT_TLV..], tlvs::FT_ACK, acknowledged);
    }
}

/// Type, the length that the whole output gives, and message ID.
fn head(out: &mut [u8], message_type: u32, message_id: u32) {
    put16(out, 0, message_type as u16);
    put16(out, 2, (out.len() - 4) as u16);
    put32(out, 4, message_id);
}

fn ft_tlv(out: &mut [u8], tlv_type: u16, number: u32) {
    put16(out, 0, tlv_type);
    put16(out, 2, 4);
    put32(out, 4, number);
}
