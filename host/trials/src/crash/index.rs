//! What the trial's own history says of the index: a label's entry is that of the last Mapping that set it.

use super::require;
use crate::entries::entry_of;
use crate::stored::Stored;
use crate::wire::{fec, label, message_type, types};
use std::collections::BTreeMap;

/// The entry of the last Mapping of each label, on one side.
pub type Entries = BTreeMap<u32, u64>;

/// The entries after a message was accepted for sending, or secured.
pub fn note(entries: &mut Entries, msg: &[u8]) {
    if let (types::MAPPING, Some(label), Some(fec)) = (message_type(msg), label(msg), fec(msg)) {
        entries.insert(label, entry_of(fec));
    }
}

/// Each label that is listed has the entry that the history says, on its own side.
pub fn check(stored: &Stored, given: &Entries, used: &Entries) -> Result<(), String> {
    for (label, code, entry) in stored.listed() {
        let last = if (3..=6).contains(&code) { used } else { given }.get(&label);
        require(last == Some(&entry), &format!("label {label}, code {code}: another entry than its last Mapping's"))?;
    }
    Ok(())
}

/// How many labels stand in another word than before.
pub fn moved(before: &Stored, after: &Stored) -> u64 {
    let place = |word: &u32| before.labels.iter().position(|other| is_same_label(*other, *word));
    let words = after.labels.iter().enumerate();
    words.filter(|(at, word)| place(word).is_some_and(|place| place != *at)).count() as u64
}

/// True where two words list one label on the peer's side.
fn is_same_label(word: u32, other: u32) -> bool {
    let is_used = |word: u32| (3..=6).contains(&(word >> 20));
    is_used(word) && is_used(other) && word & 0xF_FFFF == other & 0xF_FFFF
}
