//! The PDU reader: version 1, lengths that add up exactly, and each message as a part of the bytes lent.

use crate::octets::be16;
use cabinet::{Part, Pdu};
use core::ops::Range;

const VERSION: u16 = 1;
/// Version, length and LDP identifier; the first message stands after them.
const HEAD: usize = 10;
/// Type and length of a message; the length counts the bytes after them and includes the message ID.
const MESSAGE_HEAD: usize = 4;
const MESSAGE_ID: usize = 4;
const NONE: Part = Part { answer: 4, start: 0, end: 0 };

/// Judges the whole PDU and counts its messages.
pub fn open(pdu: &[u8]) -> Pdu {
    let sound = pdu.len() >= HEAD && be16(pdu, 0) == VERSION && usize::from(be16(pdu, 2)) + 4 == pdu.len();
    let count = if sound { count_messages(pdu) } else { None };
    count.map_or(Pdu { answer: 4, count: 0 }, |count| Pdu { answer: 0, count })
}

fn count_messages(pdu: &[u8]) -> Option<u32> {
    let (mut at, mut count) = (HEAD, 0);
    while at < pdu.len() {
        at = message_at(pdu, at)?.end;
        count += 1;
    }
    Some(count)
}

/// The message that starts at a place and lies whole within the PDU.
pub fn message(pdu: &[u8], at: usize) -> Part {
    message_at(pdu, at).and_then(as_part).unwrap_or(NONE)
}

fn message_at(pdu: &[u8], at: usize) -> Option<Range<usize>> {
    let rest = pdu.get(at..)?;
    if rest.len() < MESSAGE_HEAD {
        return None;
    }
    let length = usize::from(be16(rest, 2));
    (length >= MESSAGE_ID && length <= rest.len() - MESSAGE_HEAD).then(|| at..at + MESSAGE_HEAD + length)
}

fn as_part(range: Range<usize>) -> Option<Part> {
    let start = u32::try_from(range.start).ok()?;
    let end = u32::try_from(range.end).ok()?;
    Some(Part { answer: 0, start, end })
}
