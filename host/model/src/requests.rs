//! Open Requests: words of code 7 in the label list, each with its message ID at the same place of a list of its own.
//!
//! An ID counts only beside such a word; the others are what earlier Requests left.

use crate::labels::{words, Seen, REQUEST};

/// The place of the open Request that has an ID.
pub fn find(list: &[u8], ids: &[u8], id: u32) -> Option<usize> {
    let mut beside = words(list).zip(words(ids));
    beside.position(|(word, own)| word == REQUEST && own == id)
}

/// True where no two open Requests have the same ID.
pub fn stand_once(list: &[u8], ids: &[u8]) -> bool {
    if !words(list).fold(false, |any, word| any | (word == REQUEST)) {
        return true;
    }
    let mut seen = Seen::default();
    let mut beside = words(list).zip(words(ids));
    beside.all(|(word, id)| word != REQUEST || seen.add(id))
}
