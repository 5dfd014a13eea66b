//! One PDU in words and for scripts: its sender, and its messages or why it has none.

use crate::addresses;
use crate::json::Value;
use crate::message::Described;
use cabinet::Cabinet;
use ldp_ft::Library;
use std::fmt::{self, Display, Formatter};

/// Where the first message starts: after version, length and LDP identifier.
const HEAD: usize = 10;
const VERSION: u16 = 1;

/// A PDU with its place in the input.
pub struct Read {
    number: u64,
    length: usize,
    /// The LDP identifier of the LSR that sent it, where there is one.
    from: Option<String>,
    content: Result<Vec<Described>, Fault>,
}

/// Why a PDU does not split into messages.
enum Fault {
    Version(u16),
    Short,
    Messages,
}

/// Reads a PDU whose bytes are as many as its length says.
pub fn read(number: u64, bytes: &[u8]) -> Read {
    let opened = Library.pdu_open(bytes);
    let content = if opened.answer == 0 { Ok(messages(bytes, opened.count)) } else { Err(fault(bytes)) };
    let from = bytes.get(4..HEAD).and_then(|from| from.try_into().ok()).map(addresses::ldp_identifier);
    Read { number, length: bytes.len(), from, content }
}

/// The messages of a PDU that splits, one after the other.
fn messages(bytes: &[u8], count: u32) -> Vec<Described> {
    let mut at = HEAD;
    let parts = (0..count).map(|_| {
        let part = Library.pdu_message(bytes, at);
        at = part.end as usize;
        part
    });
    parts.filter_map(|part| bytes.get(part.start as usize..part.end as usize)).map(Described::of).collect()
}

fn fault(bytes: &[u8]) -> Fault {
    let version = u16::from_be_bytes([bytes[0], bytes[1]]);
    match version {
        VERSION if bytes.len() < HEAD => Fault::Short,
        VERSION => Fault::Messages,
        _ => Fault::Version(version),
    }
}

impl Display for Fault {
    fn fmt(&self, f: &mut Formatter) -> fmt::Result {
        match self {
            Fault::Version(version) => write!(f, "its version is {version}, not {VERSION}"),
            Fault::Short => write!(f, "its length leaves no room for its LDP identifier"),
            Fault::Messages => write!(f, "the lengths of its messages do not add up to its own"),
        }
    }
}

impl Read {
    /// True where the PDU splits, and every message in it is sound.
    pub fn is_sound(&self) -> bool {
        self.content.as_ref().is_ok_and(|messages| !messages.iter().any(Described::is_malformed))
    }

    /// True where its length can be believed, so that the next PDU starts where it ends.
    pub fn is_in_step(&self) -> bool {
        matches!(self.content, Ok(_) | Err(Fault::Messages))
    }

    pub fn json(self) -> Value {
        let mut record =
            vec![("pdu", Value::Number(self.number)), ("length", self.length.into()), ("from", self.from.into())];
        record.push(match self.content {
            Ok(messages) => {
                ("messages", Value::List(messages.into_iter().map(|message| Value::Record(message.json())).collect()))
            }
            Err(fault) => ("refused", fault.to_string().into()),
        });
        Value::Record(record)
    }
}

impl Display for Read {
    fn fmt(&self, f: &mut Formatter) -> fmt::Result {
        let from = self.from.as_deref().unwrap_or("nobody");
        write!(f, "PDU {} from {from}, {} bytes", self.number, self.length)?;
        match &self.content {
            Ok(messages) => {
                f.write_str("\n")?;
                messages.iter().try_for_each(|message| writeln!(f, "  {message}"))
            }
            Err(fault) => writeln!(f, ": malformed, {fault}"),
        }
    }
}

/// A refusal of what is no PDU.
pub fn refusal(what: &str) -> Value {
    Value::Record(vec![("refused", what.into())])
}
