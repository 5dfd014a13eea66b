//! What an image holds, for those who only look: its numbers, its label words with their prefixes, its open Requests,
//! its held messages.

use crate::image::{self, Refusal};
use crate::layout::at;
use crate::{index, labels};
use cabinet::{Part, Prefix, Request, Summary, Words, BLOCK_SIZE, PLACES};

/// The bytes of the label list of an image that passes the checks.
fn list_of(image: &[u8]) -> &[u8] {
    image::list(image::block(image, 0))
}

/// The label word at a place of an image that passes the checks; none where there is no such place.
pub fn word_at(image: &[u8], place: u32) -> Option<u32> {
    image::examine(image).ok().filter(|_| (place as usize) < PLACES)?;
    Some(labels::word(list_of(image), place as usize))
}

/// The Request whose word is at a place, if that is an open one's.
pub fn request_at(image: &[u8], place: u32) -> Request {
    match word_at(image, place) {
        Some(labels::REQUEST) => Request { open: 1, id: labels::word(image::ids(image), place as usize) },
        _ => Request { open: 0, id: 0 },
    }
}

/// The prefix of the label that the word at a place lists.
pub fn prefix_at(image: &[u8], place: u32) -> Prefix {
    match word_at(image, place) {
        Some(word) if labels::lists_label(word) => index::shown(index::entry_at(image, place as usize)),
        _ => Prefix::default(),
    }
}

pub fn summarize(image: &[u8]) -> Summary {
    match image::examine(image) {
        Ok(head) => Summary {
            answer: 0,
            block: 0,
            kept: u32::from(head.kept),
            released: head.released,
            issued: head.issued,
            secured: head.secured,
            held: head.held as u32,
            pended: head.held as u32 - head.numbered,
            labels: used(image),
            timeout: head.timeout,
            keepalive_time: u32::from(head.keepalive_time),
            max_pdu_length: u32::from(head.max_pdu_length),
            marks: u32::from(image[at::MARKS]),
        },
        Err(Refusal { answer, block }) => Summary { answer, block, ..Summary::default() },
    }
}

/// How many words are not free.
fn used(image: &[u8]) -> u32 {
    labels::words(list_of(image)).map(|word| u32::from(word != 0)).sum()
}

/// Writes all words to the start of those lent; too few lent is the last of the refusals.
pub fn labels(image: &[u8], words: &mut [u32]) -> Words {
    let room = image::examine(image).and_then(|_| words.get_mut(..PLACES).ok_or(Refusal::of(9)));
    match room {
        Ok(room) => {
            room.iter_mut().zip(labels::words(list_of(image))).for_each(|(place, word)| *place = word);
            Words { answer: 0, block: 0, count: used(image) }
        }
        Err(Refusal { answer, block }) => Words { answer, block, count: 0 },
    }
}

pub fn held(image: &[u8], place: u32) -> Part {
    let head = match image::examine(image) {
        Ok(head) => head,
        Err(Refusal { answer, .. }) => return Part { answer, start: 0, end: 0 },
    };
    if place as usize >= head.held {
        return Part { answer: 8, start: 0, end: 0 };
    }
    let block = head.block_of(place as usize);
    let message = image::message_place(image::block(image, block));
    let at = |byte: usize| (block * BLOCK_SIZE + byte) as u32;
    Part { answer: 0, start: at(message.start), end: at(message.end) }
}
