//! The index: beside each label word the entry of its FEC, 60 in each of two blocks.
//!
//! An entry is a number of eight bytes: 1, a length in bits, two zeros, and a prefix with zeros past its length; 0 for
//! every FEC that is not one IPv4 prefix. It counts only where the word lists a label; the others are what earlier
//! labels left.

use crate::image::block;
use crate::labels::{lists_label, words};
use crate::octets::be64;
use cabinet::{Prefix, ENTRIES_IN_BLOCK, INDEX_BLOCKS};

/// The entry of every FEC that is not one IPv4 prefix.
pub const OTHER: u64 = 0;
/// The first byte of another entry.
const INDEXED: u64 = 1;
const LONGEST: u32 = 32;

/// The size of an entry, and of all in a block.
pub const ENTRY: usize = 8;
pub const ENTRIES: usize = ENTRY * ENTRIES_IN_BLOCK;

/// The bits of a prefix past its length.
fn past(length: u32) -> u32 {
    u32::MAX.checked_shr(length).unwrap_or(0)
}

/// The entry of a FEC: one element of type 2, family 1, with as many bytes as the length in bits needs, and nothing
/// behind.
pub fn entry_of(fec: &[u8]) -> u64 {
    let [2, 0, 1, length, bytes @ ..] = fec else { return OTHER };
    if u32::from(*length) > LONGEST || bytes.len() != usize::from(length.div_ceil(8)) {
        return OTHER;
    }
    let mut prefix = [0; 4];
    prefix[..bytes.len()].copy_from_slice(bytes);
    let length = u32::from(*length);
    INDEXED << 56 | u64::from(length) << 48 | u64::from(u32::from_be_bytes(prefix) & !past(length))
}

/// An entry taken apart, if it is one of a prefix: its length and the prefix.
fn prefix_of(entry: u64) -> Option<(u32, u32)> {
    let (length, prefix) = ((entry >> 48 & 0xFF) as u32, entry as u32);
    let is_entry = entry >> 56 == INDEXED && length <= LONGEST && entry >> 32 & 0xFFFF == 0;
    (is_entry && prefix & past(length) == 0).then_some((length, prefix))
}

/// What an entry says; the bytes of one that does not count say anything.
pub fn shown(entry: u64) -> Prefix {
    prefix_of(entry).map_or(Prefix::default(), |(length, prefix)| Prefix { indexed: 1, length, prefix })
}

/// The entries in the bytes of a block.
fn entries_in(block: &[u8]) -> impl Iterator<Item = u64> + '_ {
    block[..ENTRIES].chunks_exact(ENTRY).map(|bytes| be64(bytes, 0))
}

/// All entries of an image, in the order of the words.
pub fn entries(image: &[u8]) -> impl Iterator<Item = u64> + '_ {
    INDEX_BLOCKS.into_iter().flat_map(|number| entries_in(block(image, number)))
}

/// The entry at a place of an image.
pub fn entry_at(image: &[u8], place: usize) -> u64 {
    let (number, place) = (INDEX_BLOCKS[place / ENTRIES_IN_BLOCK], place % ENTRIES_IN_BLOCK);
    be64(block(image, number), ENTRY * place)
}

/// True where every entry that counts is one: of the k-th block of the index, beside the words of its places.
pub fn is_sound(list: &[u8], k: usize, block: &[u8]) -> bool {
    let mut beside = words(list).skip(k * ENTRIES_IN_BLOCK).zip(entries_in(block));
    beside.all(|(word, entry)| entry == OTHER || !lists_label(word) || prefix_of(entry).is_some())
}
