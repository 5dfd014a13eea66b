//! One LDP message in words and for scripts: its type, its ID, and what its TLVs say.

use crate::addresses;
use crate::json::Value;
use crate::malformed;
use crate::names;
use cabinet::{has, Cabinet, Message};
use ldp_ft::Library;
use std::fmt::{self, Display, Formatter};
use support::wire::{self, tlvs};

const STATUS_E: u32 = 0x8000_0000;
const STATUS_F: u32 = 0x4000_0000;
/// Bit A of the session parameters.
const ON_DEMAND: u8 = 0x80;

/// The TLVs whose values the library's reader shows whole.
const LISTED: [u16; 7] =
    [tlvs::FEC, tlvs::LABEL, tlvs::REQUEST_ID, tlvs::STATUS, tlvs::FT_SESSION, tlvs::FT_PROTECTION, tlvs::FT_ACK];

/// One thing that a message says.
pub struct Field {
    pub key: &'static str,
    pub value: Value,
    pub text: String,
}

fn field(key: &'static str, value: impl Into<Value>, text: String) -> Field {
    Field { key, value: value.into(), text }
}

/// A message in words.
pub struct Described {
    pub message_type: u32,
    pub id: u32,
    /// What its TLVs say; of a malformed message why it is.
    pub fields: Result<Vec<Field>, String>,
}

/// The library's judgement stands, also where no reason is found for it.
fn why_malformed(msg: &[u8]) -> String {
    malformed::reason(msg).unwrap_or("for a reason that this tool does not know".to_string())
}

impl Described {
    /// Reads a message of at least 8 bytes, as the PDU reader shows it.
    pub fn of(msg: &[u8]) -> Self {
        let read = Library.message_read(msg);
        Described {
            message_type: u32::from(wire::message_type(msg) & 0x7FFF),
            id: wire::message_id(msg),
            fields: if read.answer == 0 { Ok(fields(&read, msg)) } else { Err(why_malformed(msg)) },
        }
    }

    pub fn is_malformed(&self) -> bool {
        self.fields.is_err()
    }

    pub fn json(self) -> Vec<(&'static str, Value)> {
        let mut record = vec![
            ("type", self.message_type.into()),
            ("name", names::message_type(self.message_type).into()),
            ("id", self.id.into()),
            ("malformed", self.fields.is_err().into()),
        ];
        match self.fields {
            Ok(fields) => record.extend(fields.into_iter().map(|field| (field.key, field.value))),
            Err(why) => record.push(("why", why.into())),
        }
        record
    }
}

impl Display for Described {
    fn fmt(&self, f: &mut Formatter) -> fmt::Result {
        write!(f, "{} 0x{:04x} ID {}", names::message_type(self.message_type), self.message_type, self.id)?;
        let fields = match &self.fields {
            Ok(fields) => fields,
            Err(why) => return write!(f, ": malformed, {why}"),
        };
        let texts: Vec<&str> = fields.iter().map(|field| field.text.as_str()).collect();
        if texts.is_empty() {
            return Ok(());
        }
        write!(f, ": {}", texts.join(", "))
    }
}

/// What the TLVs of a sound message say, in an order of its own.
fn fields(read: &Message, msg: &[u8]) -> Vec<Field> {
    let bears = |bit: u32| read.has & bit != 0;
    let mut fields = Vec::new();
    if bears(has::FEC) {
        let elements = addresses::elements(&msg[read.fec_start as usize..read.fec_end as usize]);
        fields.push(field("fec", elements.iter().cloned().collect::<Value>(), fec_text(&elements)));
    }
    if bears(has::LABEL) {
        fields.push(field("label", read.label, format!("label {}", read.label)));
    }
    if bears(has::REQUEST_ID) {
        fields.push(field("request_id", read.request_id, format!("for Request {}", read.request_id)));
    }
    if bears(has::STATUS) {
        fields.push(status(read));
    }
    fields.extend(unlisted_fields(msg));
    if bears(has::FT_SESSION) {
        fields.push(ft_session(read));
    }
    if bears(has::FT_PROTECTION) {
        fields.push(field("ft_number", read.number, format!("FT number {}", read.number)));
    }
    if bears(has::FT_ACK) {
        fields.push(field("ft_ack", read.ack, format!("FT ACK {}", read.ack)));
    }
    fields
}

/// What the TLVs say that the library's reader passes over. One that comes again, or has no words here, is shown by its
/// number and length.
fn unlisted_fields(msg: &[u8]) -> Vec<Field> {
    let (mut fields, mut others): (Vec<Field>, Vec<(u16, usize)>) = (Vec::new(), Vec::new());
    for (tlv_type, whole) in wire::parts(msg).filter(|(tlv_type, _)| !LISTED.contains(tlv_type)) {
        match in_words(tlv_type, &whole[4..]).filter(|new| fields.iter().all(|field| field.key != new.key)) {
            Some(field) => fields.push(field),
            None => others.push((tlv_type, whole.len() - 4)),
        }
    }
    if !others.is_empty() {
        fields.push(other_tlvs(&others));
    }
    fields
}

fn other_tlvs(others: &[(u16, usize)]) -> Field {
    let record = |(tlv_type, length): &(u16, usize)| {
        Value::Record(vec![
            ("type", u32::from(*tlv_type).into()),
            ("name", names::tlv(*tlv_type).into()),
            ("length", (*length).into()),
        ])
    };
    let text =
        |(tlv_type, length): &(u16, usize)| format!("TLV 0x{tlv_type:04x} {} (length {length})", names::tlv(*tlv_type));
    let texts: Vec<String> = others.iter().map(text).collect();
    field("other_tlvs", others.iter().map(record).collect::<Value>(), texts.join(", "))
}

fn fec_text(elements: &[String]) -> String {
    if elements.is_empty() {
        "FEC empty".to_string()
    } else {
        format!("FEC {}", elements.join(" "))
    }
}

fn status(read: &Message) -> Field {
    let name = names::status(read.status & !(STATUS_E | STATUS_F));
    let (fatal, forward) = (read.status & STATUS_E != 0, read.status & STATUS_F != 0);
    let value = Value::Record(vec![
        ("code", read.status.into()),
        ("name", name.into()),
        ("fatal", fatal.into()),
        ("forward", forward.into()),
        ("message_id", read.status_id.into()),
    ]);
    let about = match (fatal, read.status_id) {
        (false, 0) => String::new(),
        (true, 0) => " (fatal)".to_string(),
        (false, id) => format!(" (about message {id})"),
        (true, id) => format!(" (fatal, about message {id})"),
    };
    field("status", value, format!("status 0x{:08x} {name}{about}", read.status))
}

/// FT Session in its own unit for scripts: the draft's form has seconds, RFC 3479's milliseconds.
fn ft_session(read: &Message) -> Field {
    let published = read.published == 1;
    let (form, key, milliseconds) = if published {
        ("published", "timeout_milliseconds", u64::from(read.timeout))
    } else {
        ("draft", "timeout_seconds", 1_000 * u64::from(read.timeout))
    };
    let value = Value::Record(vec![
        ("form", form.into()),
        ("reconnect", (read.reconnect == 1).into()),
        (key, read.timeout.into()),
    ]);
    let name = if published { "FT Session of RFC 3479" } else { "FT Session" };
    let reconnect = if read.reconnect == 1 { "reconnects" } else { "begins" };
    field("ft_session", value, format!("{name} {reconnect}, keeps state {}", timeout(milliseconds)))
}

/// Milliseconds of a timeout in words: seconds, with three places where they are not whole.
pub fn timeout(milliseconds: u64) -> String {
    match (milliseconds / 1_000, milliseconds % 1_000) {
        (0, 0) => "for ever".to_string(),
        (1, 0) => "for 1 second".to_string(),
        (seconds, 0) => format!("for {seconds} seconds"),
        (seconds, part) => format!("for {seconds}.{part:03} seconds"),
    }
}

/// A TLV that the library's reader passes over, in words; none where there are none for it.
fn in_words(tlv_type: u16, value: &[u8]) -> Option<Field> {
    match (tlv_type, value) {
        (tlvs::PARAMETERS, _) => parameters(value),
        (tlvs::ADDRESS_LIST, _) => {
            let list = addresses::addresses(value)?;
            let text = format!("addresses {}", list.join(" "));
            Some(field("addresses", list.into_iter().collect::<Value>(), text))
        }
        (tlvs::HELLO_PARAMETERS, [high, low, _, _]) => {
            let seconds = u32::from(u16::from_be_bytes([*high, *low]));
            Some(field("hold_time", seconds, format!("hold time {seconds} s")))
        }
        (tlvs::IPV4_TRANSPORT | tlvs::IPV6_TRANSPORT, _) => {
            let address = addresses::transport_address(value)?;
            let text = format!("transport address {address}");
            Some(field("transport_address", address, text))
        }
        _ => None,
    }
}

/// Common Session Parameters: version, KeepAlive time, bits A and D, path vector limit, maximum PDU length, receiver.
fn parameters(value: &[u8]) -> Option<Field> {
    let [_, _, time_high, time_low, bits, _, length_high, length_low, receiver @ ..] = value else { return None };
    let keepalive_time = u32::from(u16::from_be_bytes([*time_high, *time_low]));
    let max_pdu_length = u32::from(u16::from_be_bytes([*length_high, *length_low]));
    let receiver = addresses::ldp_identifier(receiver.try_into().ok()?);
    let mode = if bits & ON_DEMAND != 0 { "on demand" } else { "unsolicited" };
    let text = format!(
        "KeepAlive time {keepalive_time} s, maximum PDU length {max_pdu_length}, downstream {mode}, for {receiver}"
    );
    let value = Value::Record(vec![
        ("keepalive_time", keepalive_time.into()),
        ("max_pdu_length", max_pdu_length.into()),
        ("on_demand", (bits & ON_DEMAND != 0).into()),
        ("receiver", receiver.into()),
    ]);
    Some(field("parameters", value, text))
}
