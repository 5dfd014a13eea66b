//! LDP messages and PDUs byte by byte: built, right or wrong as asked, and taken apart.

/// Message types.
pub mod types {
    pub const NOTIFICATION: u16 = 0x0001;
    pub const HELLO: u16 = 0x0100;
    pub const INITIALIZATION: u16 = 0x0200;
    pub const KEEPALIVE: u16 = 0x0201;
    pub const ADDRESS: u16 = 0x0300;
    pub const ADDRESS_WITHDRAW: u16 = 0x0301;
    pub const MAPPING: u16 = 0x0400;
    pub const REQUEST: u16 = 0x0401;
    pub const WITHDRAW: u16 = 0x0402;
    pub const RELEASE: u16 = 0x0403;
    pub const ABORT: u16 = 0x0404;
}

/// TLV types.
pub mod tlvs {
    pub const FEC: u16 = 0x0100;
    pub const ADDRESS_LIST: u16 = 0x0101;
    pub const LABEL: u16 = 0x0200;
    pub const FT_PROTECTION: u16 = 0x0203;
    pub const STATUS: u16 = 0x0300;
    pub const HELLO_PARAMETERS: u16 = 0x0400;
    pub const IPV4_TRANSPORT: u16 = 0x0401;
    pub const IPV6_TRANSPORT: u16 = 0x0403;
    pub const PARAMETERS: u16 = 0x0500;
    pub const FT_SESSION: u16 = 0x0503;
    pub const FT_ACK: u16 = 0x0504;
    pub const REQUEST_ID: u16 = 0x0600;
    /// A type that no paper lists.
    pub const UNLISTED: u16 = 0x3E01;
}

pub const NO_RESOURCES: u32 = 0x0000_000E;
pub const RESOURCES_AVAILABLE: u32 = 0x0000_000F;

/// The FEC TLV's value that means every FEC.
pub const WILDCARD: &[u8] = &[1];

/// The address prefix 10.0.h.l/32 as a FEC TLV's value.
pub fn prefix(host: u16) -> [u8; 8] {
    let [h, l] = host.to_be_bytes();
    [2, 0, 1, 32, 10, 0, h, l]
}

/// A message under construction: its type, its message ID, and its TLVs in order.
#[derive(Clone, Debug)]
pub struct Message {
    pub message_type: u16,
    pub message_id: u32,
    pub tlvs: Vec<(u16, Vec<u8>)>,
}

impl Message {
    pub fn new(message_type: u16, message_id: u32) -> Self {
        Message { message_type, message_id, tlvs: Vec::new() }
    }

    pub fn tlv(mut self, tlv_type: u16, value: &[u8]) -> Self {
        self.tlvs.push((tlv_type, value.to_vec()));
        self
    }

    pub fn fec(self, value: &[u8]) -> Self {
        self.tlv(tlvs::FEC, value)
    }

    pub fn label(self, label: u32) -> Self {
        self.tlv(tlvs::LABEL, &label.to_be_bytes())
    }

    pub fn status(self, status: u32) -> Self {
        self.status_of(status, 0)
    }

    /// A Status that names a message.
    pub fn status_of(self, status: u32, message_id: u32) -> Self {
        let mut value = status.to_be_bytes().to_vec();
        value.extend(message_id.to_be_bytes());
        value.extend([0; 2]);
        self.tlv(tlvs::STATUS, &value)
    }

    pub fn request_id(self, message_id: u32) -> Self {
        self.tlv(tlvs::REQUEST_ID, &message_id.to_be_bytes())
    }

    pub fn parameters(self, keepalive_time: u16, max_pdu_length: u16) -> Self {
        let mut value = vec![0, 1];
        value.extend(keepalive_time.to_be_bytes());
        value.extend([0, 0]);
        value.extend(max_pdu_length.to_be_bytes());
        value.extend([192, 0, 2, 1, 0, 0]);
        self.tlv(tlvs::PARAMETERS, &value)
    }

    /// FT Session in the draft's form.
    pub fn ft_session(self, reconnect: bool, seconds: u16) -> Self {
        let [h, l] = seconds.to_be_bytes();
        self.tlv(tlvs::FT_SESSION, &[if reconnect { 0x80 } else { 0 }, 0, h, l])
    }

    /// FT Session in RFC 3479's form: flags, two zeros, reconnect timeout, recovery time 0. Of the new flags S is set.
    pub fn ft_session_published(self, reconnect: bool, milliseconds: u32) -> Self {
        let mut value = vec![if reconnect { 0x80 } else { 0 }, 0x08, 0, 0];
        value.extend(milliseconds.to_be_bytes());
        value.extend([0; 4]);
        self.tlv(tlvs::FT_SESSION, &value)
    }

    pub fn protection(self, number: u32) -> Self {
        self.tlv(tlvs::FT_PROTECTION, &number.to_be_bytes())
    }

    pub fn ack(self, number: u32) -> Self {
        self.tlv(tlvs::FT_ACK, &number.to_be_bytes())
    }

    /// The length of the whole message.
    pub fn length(&self) -> usize {
        8 + self.tlvs.iter().map(|(_, value)| 4 + value.len()).sum::<usize>()
    }

    /// Raises the whole length to the one given with an unlisted TLV, where at least its head fits.
    pub fn padded_to(self, length: usize) -> Self {
        let room = length.saturating_sub(self.length());
        if room < 4 {
            self
        } else {
            self.tlv(tlvs::UNLISTED, &vec![0xEE; room - 4])
        }
    }

    /// The message's bytes, with right lengths.
    pub fn bytes(&self) -> Vec<u8> {
        let mut bytes = self.message_type.to_be_bytes().to_vec();
        bytes.extend(((self.length() - 4) as u16).to_be_bytes());
        bytes.extend(self.message_id.to_be_bytes());
        for (tlv_type, value) in &self.tlvs {
            bytes.extend(tlv_type.to_be_bytes());
            bytes.extend((value.len() as u16).to_be_bytes());
            bytes.extend(value);
        }
        bytes
    }
}

/// A PDU with its head of 10 bytes around whole messages.
pub fn pdu(lsr: u32, messages: &[Vec<u8>]) -> Vec<u8> {
    let length = 6 + messages.iter().map(Vec::len).sum::<usize>();
    let mut bytes = vec![0, 1];
    bytes.extend((length as u16).to_be_bytes());
    bytes.extend(lsr.to_be_bytes());
    bytes.extend([0, 0]);
    bytes.extend(messages.concat());
    bytes
}

/// Version and PDU length: what has to be there to tell where a PDU ends.
const PDU_HEAD: usize = 4;

/// Bytes that arrive piece by piece, and the PDUs in them.
#[derive(Clone, Debug, Default)]
pub struct Arrived {
    bytes: Vec<u8>,
    /// What is before has been taken.
    start: usize,
}

impl Arrived {
    pub fn add(&mut self, bytes: &[u8]) {
        self.bytes.drain(..self.start);
        self.start = 0;
        self.bytes.extend(bytes);
    }

    /// The next PDU by its own length, if all of it has arrived.
    pub fn next_pdu(&mut self) -> Option<&[u8]> {
        let length = length_of(self.rest())?;
        let pdu = self.bytes[self.start..].get(..length)?;
        self.start += length;
        Some(pdu)
    }

    /// How many bytes a PDU lacks of which version and length have arrived, and not all.
    pub fn lacks(&self) -> Option<usize> {
        length_of(self.rest())?.checked_sub(self.rest().len())
    }

    /// What has arrived of a PDU that is not whole yet.
    pub fn rest(&self) -> &[u8] {
        &self.bytes[self.start..]
    }

    /// Gives up what has arrived.
    pub fn drop_rest(&mut self) {
        self.start = self.bytes.len();
    }
}

/// The length of the whole PDU that bytes begin with, where they tell.
fn length_of(bytes: &[u8]) -> Option<usize> {
    Some(PDU_HEAD + usize::from(u16::from_be_bytes([*bytes.get(2)?, *bytes.get(3)?])))
}

/// The TLVs of a message in which lengths add up, each whole, with its type.
pub fn parts(msg: &[u8]) -> impl Iterator<Item = (u16, &[u8])> {
    let mut at = 8;
    std::iter::from_fn(move || {
        let head = msg.get(at..at + 4)?;
        let end = at + 4 + usize::from(u16::from_be_bytes([head[2], head[3]]));
        let whole = msg.get(at..end)?;
        at = end;
        Some((u16::from_be_bytes([head[0], head[1]]) & 0x3FFF, whole))
    })
}

/// The number so many bytes into the value of a message's TLV, if it has one of that type.
fn number_in(msg: &[u8], tlv_type: u16, at: usize) -> Option<u32> {
    let (_, whole) = parts(msg).find(|(found, _)| *found == tlv_type)?;
    whole.get(4 + at..8 + at)?.try_into().ok().map(u32::from_be_bytes)
}

/// A message without its FT TLVs, its length lowered.
pub fn without_ft(msg: &[u8]) -> Vec<u8> {
    let mut plain = msg[..8].to_vec();
    for (tlv_type, whole) in parts(msg) {
        if ![tlvs::FT_SESSION, tlvs::FT_PROTECTION, tlvs::FT_ACK].contains(&tlv_type) {
            plain.extend(whole);
        }
    }
    let length = (plain.len() - 4) as u16;
    plain[2..4].copy_from_slice(&length.to_be_bytes());
    plain
}

pub fn message_type(msg: &[u8]) -> u16 {
    u16::from_be_bytes([msg[0], msg[1]])
}

pub fn message_id(msg: &[u8]) -> u32 {
    u32::from_be_bytes([msg[4], msg[5], msg[6], msg[7]])
}

/// The number in a message's FT Protection TLV.
pub fn protection_number(msg: &[u8]) -> Option<u32> {
    number_in(msg, tlvs::FT_PROTECTION, 0)
}

/// The label that a message names.
pub fn label(msg: &[u8]) -> Option<u32> {
    number_in(msg, tlvs::LABEL, 0)
}

/// The value of a message's FEC TLV.
pub fn fec(msg: &[u8]) -> Option<&[u8]> {
    parts(msg).find(|(tlv_type, _)| *tlv_type == tlvs::FEC).map(|(_, whole)| &whole[4..])
}

/// The Request that a Mapping or an Abort names.
pub fn request_id(msg: &[u8]) -> Option<u32> {
    number_in(msg, tlvs::REQUEST_ID, 0)
}

/// The Request that a message answers: a Mapping names it, or a Notification in its Status.
pub fn answered(msg: &[u8]) -> Option<u32> {
    match message_type(msg) {
        types::MAPPING => request_id(msg),
        types::NOTIFICATION => status_id(msg),
        _ => None,
    }
}

/// The code in a message's Status.
pub fn status(msg: &[u8]) -> Option<u32> {
    number_in(msg, tlvs::STATUS, 0)
}

/// The message that a Status names.
pub fn status_id(msg: &[u8]) -> Option<u32> {
    number_in(msg, tlvs::STATUS, 4)
}
