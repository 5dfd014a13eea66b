//! The label list: words of label + 1,048,576 x code in block 0, 119 of them, 120 in version 1; read and rewritten word
//! by word.
//!
//! Codes: 1 given, 2 withdrawing, 8 withdrawn and the ACK has come, 9 withdrawn and the Release has come (our side);
//! 3 using, 4 asked back, 5 releasing, 6 using without protection (theirs). Code 7 is an open Request: it has no label
//! and stands on no side.

use crate::message::kinds;
use crate::octets::{all_zero, be32, put32};

pub const GIVEN: u32 = 1;
pub const WITHDRAWING: u32 = 2;
pub const USING: u32 = 3;
pub const ASKED_BACK: u32 = 4;
pub const RELEASING: u32 = 5;
pub const UNPROTECTED: u32 = 6;
pub const ACKED: u32 = 8;
pub const RELEASED: u32 = 9;
/// The code of a label that has no word, and of a free word.
const FREE: u32 = 0;

/// The word of an open Request: code 7, and 0 for a label.
pub const REQUEST: u32 = 7 << CODE_SHIFT;

const CODE_SHIFT: u32 = 20;
const LABEL_MASK: u32 = (1 << CODE_SHIFT) - 1;
const FIRST_LISTED: u32 = 16;

/// The side on which a label stands: we gave it to the peer, or the peer gave it to us.
#[derive(Clone, Copy, PartialEq, Eq)]
pub enum Side {
    Ours,
    Theirs,
}

/// Labels 0 to 15 are never listed.
pub fn is_listed(label: u32) -> bool {
    label >= FIRST_LISTED
}

/// The word of a label with a code; a free one for no code.
fn compose(label: u32, code: u32) -> u32 {
    if code == FREE {
        0
    } else {
        label | code << CODE_SHIFT
    }
}

/// The side of a label with this code; none for a word that lists no label.
fn side_of(code: u32) -> Option<Side> {
    match code {
        GIVEN..=WITHDRAWING | ACKED..=RELEASED => Some(Side::Ours),
        USING..=UNPROTECTED => Some(Side::Theirs),
        _ => None,
    }
}

/// True where a word lists a label: it is neither free nor an open Request's.
pub fn lists_label(word: u32) -> bool {
    side_of(word >> CODE_SHIFT).is_some()
}

/// The word at a place; the bytes given are those of the list.
pub fn word(list: &[u8], place: usize) -> u32 {
    be32(list, place * 4)
}

pub fn set_word(list: &mut [u8], place: usize, word: u32) {
    put32(list, place * 4, word);
}

/// The first word that is free.
pub fn first_free(list: &[u8]) -> Option<usize> {
    words(list).position(|word| word == 0)
}

/// The numbers of a list, a word of four bytes each.
pub fn words(list: &[u8]) -> impl Iterator<Item = u32> + '_ {
    list.chunks_exact(4).map(|bytes| be32(bytes, 0))
}

/// True where each word is free, an open Request, or a listed label with a code of a side, and no label stands twice on
/// it.
pub fn is_sound(list: &[u8]) -> bool {
    if all_zero(list) {
        return true;
    }
    let mut seen = Seen::default();
    for word in words(list) {
        if word == 0 || word == REQUEST {
            continue;
        }
        let (label, code) = (word & LABEL_MASK, word >> CODE_SHIFT);
        let Some(side) = side_of(code) else { return false };
        if !is_listed(label) || !seen.add(label | (side as u32) << CODE_SHIFT) {
            return false;
        }
    }
    true
}

/// The keys met so far, at most one for each word: a table with open addressing, never more than half full.
pub struct Seen {
    keys: [u32; Seen::PLACES],
    /// Zero marks a free place of the table, so it is met here.
    zero: bool,
}

impl Default for Seen {
    fn default() -> Self {
        Seen { keys: [0; Seen::PLACES], zero: false }
    }
}

impl Seen {
    const PLACES: usize = 256;

    /// Adds a key; false where it is there already.
    pub fn add(&mut self, key: u32) -> bool {
        if key == 0 {
            return !core::mem::replace(&mut self.zero, true);
        }
        let mut at = (key.wrapping_mul(0x9E37_79B1) >> 24) as usize;
        while self.keys[at] != 0 {
            if self.keys[at] == key {
                return false;
            }
            at = (at + 1) % Seen::PLACES;
        }
        self.keys[at] = key;
        true
    }
}

/// How a label stands on a side.
#[derive(Clone, Copy)]
pub struct Standing {
    pub label: u32,
    /// Its code, 0 where it is absent.
    pub code: u32,
    /// Its word's place, if it has one.
    pub place: Option<usize>,
    /// The place of a word for a label that has none, or is to move: the first that is free, also in the old list.
    pub room: Option<usize>,
}

impl Standing {
    /// Looks a label up on a side, in one pass. The old list is that before the call, of which an ACK may have freed
    /// words.
    pub fn find(old: &[u8], list: &[u8], label: u32, side: Side) -> Self {
        let mut standing = Standing { label, code: FREE, place: None, room: None };
        for (place, (word, old)) in words(list).zip(words(old)).enumerate() {
            let code = word >> CODE_SHIFT;
            if word == 0 {
                standing.room = standing.room.or((old == 0).then_some(place));
            } else if word & LABEL_MASK == label && side_of(code) == Some(side) {
                (standing.code, standing.place) = (code, Some(place));
            }
        }
        standing
    }

    /// Gives the label, which has a word, another code; 0 frees the word.
    fn recode(&self, list: &mut [u8], code: u32) {
        if let Some(place) = self.place {
            set_word(list, place, compose(self.label, code));
        }
    }

    /// Puts the label at a place, and frees the word that it had.
    fn put(&self, list: &mut [u8], place: usize, code: u32) {
        self.recode(list, FREE);
        set_word(list, place, compose(self.label, code));
    }
}

/// The side that a message of ours acts on: we give and withdraw our labels and release theirs.
pub fn side_sending(kind: u32) -> Side {
    if kind == kinds::RELEASE {
        Side::Theirs
    } else {
        Side::Ours
    }
}

/// The side that a message of the peer acts on.
pub fn side_receiving(kind: u32) -> Side {
    if kind == kinds::RELEASE {
        Side::Ours
    } else {
        Side::Theirs
    }
}

/// True where a label with this code is not to be touched without protection: all but those used without it.
pub fn is_protected(code: u32, side: Side) -> bool {
    code != UNPROTECTED && side_of(code) == Some(side)
}

/// True where any word has this code.
pub fn any_code(list: &[u8], code: u32) -> bool {
    words(list).fold(false, |any, word| any | (word >> CODE_SHIFT == code))
}

/// True where any word of a side is not to be touched without protection.
pub fn any_protected(list: &[u8], side: Side) -> bool {
    words(list).fold(false, |any, word| any | is_protected(word >> CODE_SHIFT, side))
}

/// True where any word of a side with this entry beside it is not to be touched without protection.
pub fn any_protected_beside(list: &[u8], entries: impl Iterator<Item = u64>, entry: u64, side: Side) -> bool {
    words(list).zip(entries).any(|(word, beside)| beside == entry && is_protected(word >> CODE_SHIFT, side))
}

/// Frees every word of a code.
pub fn free_all(list: &mut [u8], code: u32) {
    for bytes in list.chunks_exact_mut(4) {
        if be32(bytes, 0) >> CODE_SHIFT == code {
            bytes.fill(0);
        }
    }
}

/// A message of ours was released by ACK: a released label is free now, and a withdrawn one whose Release has come; a
/// withdrawn one whose Release has not come waits for it. Other codes stay.
pub fn acknowledged(list: &mut [u8], kind: u32, label: u32) {
    if !matches!(kind, kinds::WITHDRAW | kinds::RELEASE) {
        return;
    }
    let standing = Standing::find(list, list, label, side_sending(kind));
    match (kind, standing.code) {
        (kinds::WITHDRAW, WITHDRAWING) => standing.recode(list, ACKED),
        (kinds::WITHDRAW, RELEASED) | (kinds::RELEASE, RELEASING) => standing.recode(list, FREE),
        _ => {}
    }
}

/// True where a message of ours may be sent about a label that stands so.
pub fn may_send(kind: u32, standing: &Standing) -> bool {
    is_listed(standing.label)
        && match kind {
            kinds::MAPPING => matches!(standing.code, FREE | GIVEN),
            kinds::WITHDRAW => standing.code == GIVEN,
            _ => matches!(standing.code, USING | ASKED_BACK),
        }
}

/// A message of ours was accepted for sending about a label that has a word.
pub fn accepted(list: &mut [u8], kind: u32, standing: &Standing) {
    let code = match (kind, standing.code) {
        (kinds::MAPPING, _) => GIVEN,
        (kinds::WITHDRAW, _) => WITHDRAWING,
        (_, ASKED_BACK) => FREE,
        _ => RELEASING,
    };
    standing.recode(list, code);
}

/// A Mapping of ours was accepted for a label that has no word: it takes the one at a place.
pub fn given(list: &mut [u8], standing: &Standing, place: usize) {
    standing.put(list, place, GIVEN);
}

/// The code that a Mapping makes of a listed label's.
fn mapped(code: u32, protected: bool) -> u32 {
    match code {
        ASKED_BACK | UNPROTECTED => code,
        _ if protected => USING,
        _ => UNPROTECTED,
    }
}

/// A Mapping of a label that keeps its word came in.
pub fn mapping_received(list: &mut [u8], standing: &Standing, protected: bool) {
    standing.recode(list, mapped(standing.code, protected));
}

/// A Mapping came in of a label that takes the word at a place, and leaves the one that it has.
pub fn mapping_taken(list: &mut [u8], standing: &Standing, place: usize, protected: bool) {
    standing.put(list, place, mapped(standing.code, protected));
}

/// The code that a Withdraw or a Release makes of a label's, on the side that it acts on.
fn undone(kind: u32, code: u32) -> u32 {
    match (kind, code) {
        (kinds::WITHDRAW, USING) => ASKED_BACK,
        (kinds::WITHDRAW, UNPROTECTED) => FREE,
        (kinds::RELEASE, GIVEN | ACKED) => FREE,
        (kinds::RELEASE, WITHDRAWING) => RELEASED,
        _ => code,
    }
}

/// A Withdraw or a Release of a label came in.
pub fn undo(list: &mut [u8], kind: u32, standing: &Standing) {
    standing.recode(list, undone(kind, standing.code));
}

/// A Withdraw or a Release came in of those labels that are reached, which is told for each word.
pub fn undo_each(list: &mut [u8], kind: u32, reached: impl Iterator<Item = bool>) {
    for (bytes, _) in list.chunks_exact_mut(4).zip(reached).filter(|(_, reached)| *reached) {
        let word = be32(bytes, 0);
        put32(bytes, 0, compose(word & LABEL_MASK, undone(kind, word >> CODE_SHIFT)));
    }
}
