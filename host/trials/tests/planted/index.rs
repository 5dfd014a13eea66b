//! What the faults about the index do wrong: the FEC is read wrongly before the model makes its call, or the entry is
//! put wrongly after it.

use super::{put, replaced, word_at, Fault, Planted};
use cabinet::{further, Cabinet, Extended, Outcome, Prefix, Session, BLOCK_SIZE, FURTHER, INDEX_BLOCKS, PLACES};
use model::Model;
use trials::entries::{entry_of, NO_ENTRY};
use trials::stored::{entry_at, seal, u32_at, u64_at, word_lists_label, Stored, ENTRY_PLACES};
use trials::wire::{self, parts, tlvs, types, Message, WILDCARD};

const THEIRS: std::ops::RangeInclusive<u32> = 3..=6;

/// A message with another FEC; the same where it has none, or is malformed.
fn with_fec(msg: &[u8], change: impl Fn(&[u8]) -> Option<Vec<u8>>) -> Vec<u8> {
    let tlv = parts(msg).find(|(tlv_type, _)| *tlv_type == tlvs::FEC).map(|(_, tlv)| tlv);
    match tlv.filter(|_| Model.message_read(msg).answer == 0) {
        Some(tlv) => change(&tlv[4..]).map_or(msg.to_vec(), |fec| replaced(msg, tlv, tlvs::FEC, &fec)),
        None => msg.to_vec(),
    }
}

/// A FEC that has this entry.
fn of_entry(entry: u64) -> Vec<u8> {
    let [is_prefix, length, _, _, prefix @ ..] = entry.to_be_bytes();
    if is_prefix == 1 {
        [&[2, 0, 1, length], &prefix[..usize::from(length).div_ceil(8)]].concat()
    } else {
        Vec::new()
    }
}

/// The entry of a label on our side or theirs.
fn entry_on(stored: &Stored, theirs: bool, label: u32) -> Option<u64> {
    let found = stored.listed().find(|(listed, code, _)| *listed == label && THEIRS.contains(code) == theirs);
    found.map(|(_, _, entry)| entry)
}

fn put_entry(image: &mut [u8], place: usize, entry: u64) {
    image[entry_at(place)..][..8].copy_from_slice(&entry.to_be_bytes());
    INDEX_BLOCKS.into_iter().for_each(|block| seal(image, block));
}

/// Tells which blocks have changed, but for the slot.
fn tell(before: &[u8], image: &[u8], outcome: &mut Outcome) {
    let changed =
        |block: usize| image[block * BLOCK_SIZE..][..BLOCK_SIZE] != before[block * BLOCK_SIZE..][..BLOCK_SIZE];
    outcome.block0 = u32::from(changed(0));
    let bits = FURTHER.into_iter().enumerate().map(|(bit, block)| u32::from(changed(block)) << bit);
    outcome.further = bits.sum();
}

/// The place of the word that a call made one of a label, where it was none of the same label before.
fn taken(before: &[u8], image: &[u8]) -> Option<usize> {
    let word = |image: &[u8], place: usize| u32_at(image, word_at(place));
    (0..PLACES).find(|place| word_lists_label(word(image, *place)) && !word_lists_label(word(before, *place)))
}

/// The place of a label that a call freed.
fn freed(before: &[u8], image: &[u8]) -> Option<usize> {
    let word = |image: &[u8], place: usize| u32_at(image, word_at(place));
    (0..PLACES).find(|place| word_lists_label(word(before, *place)) && word(image, *place) == 0)
}

impl Planted {
    /// A received message as this cabinet reads its FEC.
    pub fn fec_read_wrongly(&self, image: &[u8], msg: &[u8]) -> Vec<u8> {
        let (named, protected) = (wire::label(msg), wire::protection_number(msg).is_some());
        let prefix_alone = |fec: &[u8]| named.is_none() && entry_of(fec) != NO_ENTRY;
        match self.0 {
            Fault::TakesLength33 => with_fec(msg, |fec| {
                let is_longer = fec.len() >= 8 && fec[..3] == [2, 0, 1] && fec[3] > 32;
                is_longer.then(|| [&[2, 0, 1, 32], &fec[4..8]].concat())
            }),
            Fault::TakesByteBehind => with_fec(msg, |fec| {
                let whole = fec.get(..fec.len().checked_sub(1)?)?;
                (entry_of(whole) != NO_ENTRY).then(|| whole.to_vec())
            }),
            Fault::PrefixIsEvery => with_fec(msg, |fec| prefix_alone(fec).then(|| WILDCARD.to_vec())),
            Fault::PrefixIsNone => with_fec(msg, |fec| prefix_alone(fec).then(Vec::new)),
            Fault::PrefixNeedsNoProtection if !protected => with_fec(msg, |fec| prefix_alone(fec).then(Vec::new)),
            Fault::KeepsOldEntry => with_fec(msg, |_| {
                let stored = (Model.summarize(image).answer == 0).then(|| Stored::read(image))?;
                entry_on(&stored, true, named?).map(of_entry)
            }),
            Fault::ComparesOurSide => with_fec(msg, |fec| {
                let stored = (Model.summarize(image).answer == 0).then(|| Stored::read(image))?;
                let ours = entry_on(&stored, false, named?).filter(|entry| *entry == entry_of(fec));
                ours.and(entry_on(&stored, true, named?)).map(of_entry)
            }),
            _ => msg.to_vec(),
        }
    }

    /// Submit and Receive, where a message was accepted.
    pub fn wrong_entry(&self, before: &[u8], image: &mut [u8], msg: &[u8], outcome: &mut Outcome) {
        let index = outcome.further & (further::INDEX[0] | further::INDEX[1]);
        match (self.0, taken(before, image), freed(before, image)) {
            (Fault::HidesIndex, _, _) => outcome.further &= !index,
            (Fault::NamesBlock66ForAll, _, _) if index != 0 => outcome.further = further::INDEX[0],
            (Fault::LeavesEntries, _, _) if index != 0 => {
                image[INDEX_BLOCKS[0] * BLOCK_SIZE..].copy_from_slice(&before[INDEX_BLOCKS[0] * BLOCK_SIZE..]);
                tell(before, image, outcome);
            }
            (Fault::WipesEntries, _, Some(place)) => {
                put_entry(image, place, NO_ENTRY);
                tell(before, image, outcome);
            }
            (Fault::KeepsBitsPastLength, Some(place), _) => {
                let entry = u64_at(image, entry_at(place));
                let bytes: Vec<u8> = wire::fec(msg).unwrap_or_default().iter().copied().skip(4).collect();
                let all = bytes.iter().rev().fold(0u64, |all, byte| all >> 8 | u64::from(*byte) << 24);
                put_entry(image, place, if entry == NO_ENTRY { NO_ENTRY } else { entry | all });
                tell(before, image, outcome);
            }
            (Fault::WritesEntryInPlace, Some(new), Some(old)) if is_move(before, image, old, new) => {
                let (word, entry) = (u32_at(image, word_at(new)), u64_at(image, entry_at(new)));
                put(image, word_at(new), &[0; 4]);
                put(image, word_at(old), &word.to_be_bytes());
                image[INDEX_BLOCKS[0] * BLOCK_SIZE..].copy_from_slice(&before[INDEX_BLOCKS[0] * BLOCK_SIZE..]);
                put_entry(image, old, entry);
                tell(before, image, outcome);
            }
            (Fault::LeavesOldWord, Some(new), Some(old)) if is_move(before, image, old, new) => {
                put(image, word_at(old), &before[word_at(old)..][..4]);
            }
            _ => {}
        }
    }

    /// Submit of a Mapping that would change its label's entry, where that is all that bars it.
    pub fn submit_other_entry(&self, image: &mut [u8], given: Session, msg: &[u8]) -> Outcome {
        let right = Model.submit(image, given, msg);
        if self.0 != Fault::SubmitsOtherEntry || right.answer != 6 || wire::message_type(msg) & 0x7FFF != types::MAPPING
        {
            return right;
        }
        let stored = Stored::read(image);
        let same = with_fec(msg, |_| entry_on(&stored, false, wire::label(msg)?).map(of_entry));
        let mut other = image.to_vec();
        let outcome = Model.submit(&mut other, given, &same);
        if outcome.answer != 0 {
            return right;
        }
        image.copy_from_slice(&other);
        outcome
    }

    /// Receive of a message with an ACK, where words that the ACK frees count as free before it.
    pub fn receive_after_ack(&self, image: &mut [u8], session: Session, msg: &[u8]) -> Option<Outcome> {
        let ack = parts(msg).find(|(tlv_type, _)| *tlv_type == tlvs::FT_ACK).map(|(_, tlv)| tlv)?;
        let right = Model.receive(&mut image.to_vec(), session, msg);
        if self.0 != Fault::TakesWordFreedByAck || ![0, 21].contains(&right.answer) {
            return None;
        }
        let mut other = image.to_vec();
        let keepalive = Message::new(types::KEEPALIVE, 1).ack(u32_at(ack, 4)).bytes();
        let first = Model.receive(&mut other, session, &keepalive);
        let second = Model.receive(&mut other, first.session, &replaced(msg, ack, tlvs::UNLISTED, &[]));
        if second.answer != 0 {
            return None;
        }
        let mut outcome = second;
        tell(image, &other, &mut outcome);
        image.copy_from_slice(&other);
        Some(outcome)
    }

    /// Restore, where it took an image, or refused a block of the index.
    pub fn wrong_index(&self, image: &[u8], outcome: &mut Outcome) {
        let refused = |block: usize| Outcome { answer: 11, block: block as u32, ..Outcome::default() };
        let of_place = |place: usize| INDEX_BLOCKS[place / 60];
        let litter = |place: &usize| !is_entry(u64_at(image, entry_at(*place)));
        match (self.0, outcome.answer) {
            (Fault::CountsAllEntries, 0) => {
                *outcome = (0..PLACES).find(litter).map_or(*outcome, |place| refused(of_place(place)));
            }
            (Fault::CountsDeadEntry, 0) if litter(&(ENTRY_PLACES - 1)) => *outcome = refused(INDEX_BLOCKS[1]),
            (_, 10 | 11) if INDEX_BLOCKS.contains(&(outcome.block as usize)) => {
                let mut mended = image.to_vec();
                let block = outcome.block as usize;
                let bytes = &mut mended[block * BLOCK_SIZE..][..BLOCK_SIZE];
                match self.0 {
                    Fault::SkipsIndexOfIdle if image[22] == 0 => bytes.fill(0),
                    Fault::SkipsZerosAfterEntries if outcome.answer == 11 => bytes[480..].fill(0),
                    Fault::SkipsEntries if outcome.answer == 11 => bytes[..480].fill(0),
                    _ => return,
                }
                seal(&mut mended, block);
                *outcome = Model.restore(&mut mended);
            }
            _ => {}
        }
    }

    pub fn wrong_prefix(&self, image: &[u8], place: u32) -> Prefix {
        let mut prefix = Model.prefix_at(image, place);
        let listed = Model.label(image, place) != u32::MAX;
        let [is_prefix, length, _, _, bits @ ..] = match listed {
            true => u64_at(image, entry_at(place as usize)).to_be_bytes(),
            false => [0; 8],
        };
        match self.0 {
            Fault::ShowsFreeEntry if is_prefix == 1 => {
                prefix = Prefix { indexed: 1, length: u32::from(length), prefix: u32::from_be_bytes(bits) };
            }
            Fault::ShowsPrefixReversed => prefix.prefix = prefix.prefix.swap_bytes(),
            Fault::ShowsNoLength0 if prefix.length == 0 => prefix = Prefix::default(),
            _ => {}
        }
        prefix
    }

    pub fn wrong_extension(&self, image: &mut [u8], stored_len: usize) -> Extended {
        match self.0 {
            Fault::ExtendsAnySize if stored_len.is_multiple_of(512) => Model.extend(image, 33_280),
            Fault::ExtendsBaseAlone if stored_len != 33_280 => Extended { answer: 12, further: 0 },
            Fault::ExtensionNamesBlock65 => {
                let right = Model.extend(image, stored_len);
                Extended { further: right.further & further::REQUESTS, ..right }
            }
            _ => Model.extend(image, stored_len),
        }
    }
}

/// True where the word freed and the word taken list one label.
fn is_move(before: &[u8], image: &[u8], old: usize, new: usize) -> bool {
    let label = |word: u32| word & 0xF_FFFF;
    label(u32_at(before, word_at(old))) == label(u32_at(image, word_at(new)))
}

/// True where eight bytes are an entry.
fn is_entry(entry: u64) -> bool {
    entry == NO_ENTRY || entry_of(&of_entry(entry)) == entry
}
