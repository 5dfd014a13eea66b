//! `ldp-ft image FILE`: what a stored image holds, or why it is refused.

use crate::holdings::{Held, Holdings, Listed};
use crate::json::Value;
use crate::message::{timeout, Described};
use crate::names;
use cabinet::{
    Cabinet, Summary, BLOCK_SIZE, IMAGE_SIZE, IMAGE_SIZE_WITHOUT_INDEX, IMAGE_SIZE_WITHOUT_REQUESTS, INDEX_BLOCKS,
    REQUEST_BLOCK,
};
use ldp_ft::Library;
use std::fmt::Write;

/// What is said of an image, and whether it is refused.
pub struct Report {
    pub text: String,
    pub refused: bool,
}

/// So many bytes of a file tell an image from what is none.
pub const LONGEST: u64 = IMAGE_SIZE as u64 + 1;

/// Says what an image holds: in words, or for scripts.
pub fn report(image: &[u8], json: bool) -> Report {
    match Holdings::read(image) {
        Ok(holdings) => {
            let text = if json { format!("{}\n", record(holdings)) } else { words(&holdings) };
            Report { text, refused: false }
        }
        Err(summary) => {
            let (answer, block) = (summary.answer, summary.block);
            let (reason, advice) = (reason(image, answer, block), advice(image, answer, block));
            let text = if json {
                format!("{}\n", refusal(&summary, reason, advice))
            } else {
                format!("refused {answer} block {block}: {reason}\nwhat to do: {advice}\n")
            };
            Report { text, refused: true }
        }
    }
}

/// Which check an image fails, and where; of an image of the earlier version that it is one.
fn reason(image: &[u8], answer: u32, block: u32) -> String {
    match (answer, block, version(image)) {
        (11, 0, Some(EARLIER)) => format!("block 0 has version {EARLIER}, as an earlier release stores it"),
        _ => failed_check(image, answer, block),
    }
}

/// What to do with an image that is refused.
fn advice(image: &[u8], answer: u32, block: u32) -> String {
    let convert =
        "`ldp-ft convert forward` makes it one of version 2 (in a cabinet ldp_ft_extend, if it is shorter, and \
                   ldp_ft_convert_forward)";
    match (answer, block) {
        (11, 0) if version(image) == Some(EARLIER) => convert.to_string(),
        (12, _) if image.len() == IMAGE_SIZE_WITHOUT_REQUESTS || is_of_66_blocks(image, EARLIER) => convert.to_string(),
        (12, _) if is_of_66_blocks(image, PRESENT) => {
            "a cabinet of this release makes it whole when it begins with it (ldp_ft_extend)".to_string()
        }
        (12, _) => "see whether this is the right file, and whether it was copied whole".to_string(),
        _ => {
            "keep this file, and read the store again: it may pass. If no copy passes, all that is left is a new image \
              (ldp_ft_format): its session begins fresh, and every label is lost and has to be given anew"
                .to_string()
        }
    }
}

/// The version of images that the converter takes forward.
pub const EARLIER: u32 = 1;
const PRESENT: u32 = 2;

/// An image of a release that kept no prefixes, by its size and its version.
fn is_of_66_blocks(image: &[u8], wanted: u32) -> bool {
    image.len() == IMAGE_SIZE_WITHOUT_INDEX && version(image) == Some(wanted)
}

/// The version that block 0 says it has, whether or not that is known.
pub fn version(image: &[u8]) -> Option<u32> {
    image.first_chunk().map(|bytes| u32::from_be_bytes(*bytes))
}

/// Which check an image fails, by the answer and the block that it names.
pub fn failed_check(image: &[u8], answer: u32, number: u32) -> String {
    let start = number as usize * BLOCK_SIZE;
    match (answer, image.get(start..start + BLOCK_SIZE)) {
        (10, Some(block)) => {
            let stored = block.last_chunk().map_or(0, |check| u32::from_be_bytes(*check));
            let right = Library.block_check(block);
            let block = block_in_words(number);
            format!("the check of {block} is wrong: 0x{stored:08x} is stored, 0x{right:08x} is right")
        }
        (11, _) => format!("a field of {} is out of its range; its check is right", block_in_words(number)),
        _ => size_in_words(image.len()),
    }
}

/// A block by its number and by what it is for.
fn block_in_words(number: u32) -> String {
    let what = match number as usize {
        0 => "the session's numbers and its label list",
        REQUEST_BLOCK => "the message IDs of open Requests",
        block if INDEX_BLOCKS.contains(&block) => "the prefixes of labels",
        _ => "a message held",
    };
    format!("block {number} ({what})")
}

fn size_in_words(length: usize) -> String {
    match length {
        IMAGE_SIZE_WITHOUT_REQUESTS => {
            format!("an image of {length} bytes is one of an earlier release, without its block of Requests")
        }
        IMAGE_SIZE_WITHOUT_INDEX => {
            format!("an image of {length} bytes is one of an earlier release, without its prefixes")
        }
        _ if length > IMAGE_SIZE => format!("it has more than the {IMAGE_SIZE} bytes of an image"),
        _ => format!("it has {length} bytes, and an image has {IMAGE_SIZE}"),
    }
}

/// The numbers as the image printer shows them, each with what it counts.
fn counts(summary: &Summary) -> String {
    let Summary { released, issued, secured, held, pended, labels, .. } = summary;
    format!(
        "released {released}: the peer has acknowledged our messages through this number\n\
         issued {issued}: the last number that one of our messages was given\n\
         secured {secured}: the peer's messages through this number are taken and stored here\n\
         held {held}: our messages that the peer has not acknowledged\n\
         pended {pended}: those of them that have no number yet, for they were never sent\n\
         labels {labels}: places of the label list in use, one for each open Request among them\n"
    )
}

/// The counts, then the rest line by line.
fn words(holdings: &Holdings) -> String {
    let mut text = counts(&holdings.summary);
    if holdings.summary.kept == 0 {
        return text + "no state is kept\n";
    }
    text += &agreed(holdings);
    // Writing to a String cannot fail.
    for listed in &holdings.labels {
        let (code, meaning) = (listed.code, names::label_code(listed.code));
        let waits = names::waits_for(code).map_or(String::new(), |what| format!(": waits for {what}"));
        let _ = writeln!(text, "label {listed}: {meaning} (code {code}){waits}");
    }
    for id in &holdings.requests {
        let _ = writeln!(text, "Request {id} is open: waits for a Mapping or a Notification that names it");
    }
    for Held { number, message } in &holdings.held {
        let number = number.map_or("pended".to_string(), |number| format!("number {number}"));
        let _ = writeln!(text, "holds {number}: {}", Described::of(message));
    }
    text
}

/// What was agreed with the peer, and whether Requests are stopped.
fn agreed(holdings: &Holdings) -> String {
    let Summary { timeout: milliseconds, keepalive_time, max_pdu_length, .. } = holdings.summary;
    let stopped = match (holdings.summary.is_stopped(), holdings.summary.is_stopping()) {
        (false, false) => "are not stopped",
        (true, false) => "are stopped: the peer has no label resources",
        (false, true) => "of the peer are stopped: it was told that we have no label resources",
        (true, true) => "are stopped both ways: neither end has label resources",
    };
    format!(
        "state is kept over a break {}\n\
         the peer's KeepAlive time is {keepalive_time} s, its maximum PDU length {max_pdu_length}\n\
         Requests {stopped}\n",
        timeout(u64::from(milliseconds))
    )
}

fn refusal(summary: &Summary, reason: String, advice: String) -> Value {
    Value::Record(vec![
        ("answer", summary.answer.into()),
        ("block", summary.block.into()),
        ("refused", reason.into()),
        ("what_to_do", advice.into()),
    ])
}

fn record(holdings: Holdings) -> Value {
    let Summary { answer, kept, released, issued, secured, held, pended, labels, .. } = holdings.summary;
    let Summary { timeout, keepalive_time, max_pdu_length, .. } = holdings.summary;
    let listed = |Listed { label, code, prefix }: &Listed| {
        Value::Record(vec![
            ("label", (*label).into()),
            ("prefix", prefix.map(|prefix| prefix.to_string()).into()),
            ("code", (*code).into()),
            ("meaning", names::label_code(*code).into()),
            ("waits_for", names::waits_for(*code).into()),
        ])
    };
    let message = |held: &Held| {
        let mut record = vec![("number", held.number.into())];
        record.extend(Described::of(&held.message).json());
        Value::Record(record)
    };
    Value::Record(vec![
        ("answer", answer.into()),
        ("kept", (kept == 1).into()),
        ("released", released.into()),
        ("issued", issued.into()),
        ("secured", secured.into()),
        ("held", held.into()),
        ("pended", pended.into()),
        ("labels", labels.into()),
        ("timeout_milliseconds", timeout.into()),
        ("keepalive_time", keepalive_time.into()),
        ("max_pdu_length", max_pdu_length.into()),
        ("stopped_by_peer", holdings.summary.is_stopped().into()),
        ("stopped_by_us", holdings.summary.is_stopping().into()),
        ("label_words", holdings.labels.iter().map(listed).collect()),
        ("open_requests", holdings.requests.iter().copied().collect()),
        ("messages", holdings.held.iter().map(message).collect()),
    ])
}
