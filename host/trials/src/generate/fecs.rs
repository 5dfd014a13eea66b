//! FECs: prefixes from a small range, so that labels and messages meet, of every length; and those that are no prefix.

use crate::entries::{entry_of, fec};
use crate::random::Random;
use crate::stored::{word_lists_label, Stored, ENTRY_PLACES};
use crate::wire::WILDCARD;

/// Prefixes that differ only in bits that some lengths mask.
const PREFIXES: [u32; 6] = [0, 0x0A00_0000, 0x0A00_0001, 0x0A01_0000, 0xC0A8_0401, u32::MAX];
const LENGTHS: [u8; 10] = [0, 1, 7, 8, 9, 16, 24, 31, 32, 32];

/// A prefix as its FEC TLV's value, at times with bits past its length.
fn prefix(random: &mut Random) -> Vec<u8> {
    let length = if random.percent(90) { random.pick(&LENGTHS) } else { random.between(0, 32) as u8 };
    let prefix = if random.percent(90) { random.pick(&PREFIXES) } else { random.u32() };
    fec(length, prefix)
}

/// A FEC that is no single well-formed IPv4 prefix: of no element, of two, of a host, of another family, too long or
/// short.
fn other(random: &mut Random) -> Vec<u8> {
    let mut value = prefix(random);
    match random.below(12) {
        0 => value.clear(),
        1 => value.truncate(random.below(4)),
        2 => value[0] = 3,
        3 => value[2] = 2,
        4 => value[1] = 1,
        5 => {
            value[3] = random.pick(&[33, 40, 64, 255]);
            value.resize(random.pick(&[8, 4 + usize::from(value[3]).div_ceil(8)]), random.u8());
        }
        6 => value.push(random.u8()),
        7 => _ = value.pop(),
        8 => value.extend(prefix(random)),
        9 => value.extend(WILDCARD),
        10 => value = [WILDCARD, &value].concat(),
        _ => value = vec![1, 1],
    }
    value
}

/// A FEC TLV's value: mostly a prefix, at times the wildcard.
pub fn any(random: &mut Random) -> Vec<u8> {
    match random.below(10) {
        0..=1 => WILDCARD.to_vec(),
        2..=3 => other(random),
        _ => prefix(random),
    }
}

/// A FEC of the state: that of a listed label in most cases, by its entry, or any.
pub fn of_state(random: &mut Random, stored: &Stored, label: Option<u32>) -> Vec<u8> {
    let is_meant = |word: &u32| label.is_none_or(|label| word & 0xF_FFFF == label);
    let places = stored.labels.iter().enumerate().filter(|(_, word)| word_lists_label(**word) && is_meant(word));
    let entries: Vec<u64> = places.map(|(place, _)| stored.entries[place]).collect();
    if entries.is_empty() || random.percent(25) {
        return any(random);
    }
    let entry = random.pick(&entries);
    of_entry(random, entry)
}

/// A FEC that has this entry, at times with bits past its length; one that is no prefix for zeros.
fn of_entry(random: &mut Random, entry: u64) -> Vec<u8> {
    let [is_prefix, length, ..] = entry.to_be_bytes();
    if is_prefix == 0 {
        return other(random);
    }
    let past = u32::MAX.checked_shr(u32::from(length)).unwrap_or(0);
    fec(length, entry as u32 | random.u32() & past)
}

/// Entries of labels, a few of which share one; what earlier labels left stands beside the others, and is anything at
/// times.
pub fn entries(random: &mut Random, labels: &[u32]) -> [u64; ENTRY_PLACES] {
    let indexed = random.pick(&[0, 60, 95, 100]);
    let litter = random.percent(20);
    std::array::from_fn(|place| {
        let counts = labels.get(place).is_some_and(|word| word_lists_label(*word));
        match random.percent(indexed) {
            _ if litter && !counts => random.u64(),
            true => entry_of(&prefix(random)),
            false => 0,
        }
    })
}
