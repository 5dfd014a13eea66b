//! What a received message did to labels by its FEC, for the coverage of a run.

use crate::calls::Observed;
use crate::entries::{entry_of, NO_ENTRY};
use crate::stored::{word_lists_label, Stored};
use crate::wire::{answered, fec, label, message_type, parts, tlvs, types};

const OURS: [u32; 4] = [1, 2, 8, 9];
const THEIRS: [u32; 4] = [3, 4, 5, 6];

/// What a message did.
#[derive(Clone, Copy, Debug, PartialEq, Eq, PartialOrd, Ord)]
pub enum ByFec {
    /// A Mapping moved a label of this code to a free word, or to the word of the Request that it answers.
    Moved { code: u32, answers: bool },
    /// A Mapping would have moved a label of this code, and there was no word.
    NoRoom { code: u32 },
    /// A Withdraw, or a Release, of a prefix acted on so many labels: 0, 1, or 2 for more.
    Undone { release: bool, labels: usize },
    /// A Withdraw, or a Release, of a prefix without the protection that one of its labels needs.
    Unguarded { release: bool },
}

/// All that a run has to reach.
pub fn all() -> impl Iterator<Item = ByFec> {
    let moved = THEIRS.into_iter().flat_map(|code| [true, false].map(|answers| ByFec::Moved { code, answers }));
    let no_room = THEIRS.into_iter().map(|code| ByFec::NoRoom { code });
    let undone =
        [false, true].into_iter().flat_map(|release| (0..3).map(move |labels| ByFec::Undone { release, labels }));
    moved.chain(no_room).chain(undone).chain([false, true].map(|release| ByFec::Unguarded { release }))
}

/// The place of a label that the peer gave, and its code.
fn standing(stored: &Stored, label: u32) -> Option<(usize, u32)> {
    let found = stored.labels.iter().position(|word| word & 0xF_FFFF == label && THEIRS.contains(&(word >> 20)))?;
    Some((found, stored.labels[found] >> 20))
}

/// What Receive in UpFT did with a sound message, if its FEC came into it. Those with an ACK are passed over.
pub fn of(image: &[u8], msg: &[u8], seen: &Observed) -> Option<ByFec> {
    if parts(msg).any(|(tlv_type, _)| tlv_type == tlvs::FT_ACK) {
        return None;
    }
    let (answer, before) = (seen.returned.answer(), Stored::read(image));
    let entry = entry_of(fec(msg)?);
    match (message_type(msg) & 0x7FFF, label(msg)) {
        (types::MAPPING, Some(label)) => of_mapping(&before, msg, seen, label, entry),
        (types::WITHDRAW | types::RELEASE, None) if entry != NO_ENTRY => {
            let release = message_type(msg) & 0x7FFF == types::RELEASE;
            match answer {
                0 => Some(ByFec::Undone { release, labels: reached(&before, release, entry).min(2) }),
                33 => Some(ByFec::Unguarded { release }),
                _ => None,
            }
        }
        _ => None,
    }
}

/// How many labels of a prefix stand on the side that the message acts on.
fn reached(before: &Stored, release: bool, entry: u64) -> usize {
    let side = if release { OURS } else { THEIRS };
    before.listed().filter(|(_, code, beside)| side.contains(code) && *beside == entry).count()
}

fn of_mapping(before: &Stored, msg: &[u8], seen: &Observed, label: u32, entry: u64) -> Option<ByFec> {
    let (place, code) = standing(before, label).filter(|(place, _)| before.entries[*place] != entry)?;
    match seen.returned.answer() {
        0 => {
            let after = Stored::read(seen.image.content());
            let (moved, _) = standing(&after, label).filter(|(moved, _)| *moved != place)?;
            let answers =
                answered(msg).is_some() && before.labels[moved] != 0 && !word_lists_label(before.labels[moved]);
            Some(ByFec::Moved { code, answers })
        }
        21 => Some(ByFec::NoRoom { code }),
        _ => None,
    }
}
