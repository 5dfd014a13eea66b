//! The check of a block: two sums of its 254 words modulo 65,535.
//!
//! B is the sum of A after each word, so word i (from 0) counts 254 - i times in it, and the starting 1 counts 254
//! times. In that form a zero word adds nothing to either sum, and one remainder at the end is enough.
//!
//! The bytes are read in rows of four words, as one number; two words are summed side by side in its halves, where the
//! sums of 63 rows find room. The word at place p of row j of n counts 254 - 4j - p = 4(n - j) + (254 - 4n) - p times:
//! the first part comes from summing the sums after each row, the others from the sums in all and by place.
//!
//! Words are read with their bytes swapped. Modulo 65,535 that multiplies each by 256, and multiplying the sums by 256
//! once more undoes it, for 256 * 256 leaves 1.

use crate::octets::{be32, put32};
use cabinet::BLOCK_SIZE;

/// The bytes of a block that its check covers.
pub const COVERED: usize = BLOCK_SIZE - 4;
const WORDS: u64 = COVERED as u64 / 2;
const MODULUS: u64 = 65_535;
const SWAP: u64 = 256;

/// The size of a row.
const ROW: usize = 8;
const WORDS_IN_ROW: u64 = 4;
/// The even words of a row, each in a half by itself.
const EVEN: u64 = 0x0000_FFFF_0000_FFFF;

/// The end of the row in which bytes end: zeros may be summed with them, and rows are faster than words.
pub fn whole_rows(end: usize) -> usize {
    end.next_multiple_of(ROW).min(COVERED)
}

/// The sum of a number's halves.
fn halves(number: u64) -> u64 {
    (number >> 32) + (number & 0xFFFF_FFFF)
}

/// The check, A above B, of a block whose covered bytes are those given and then zeros; an even number, at most 508.
pub fn sums(bytes: &[u8]) -> u32 {
    let rows = bytes.chunks_exact(ROW);
    let rest = rows.remainder().chunks_exact(2);
    let weight_after_rows = WORDS - WORDS_IN_ROW * rows.len() as u64;
    let (mut all, mut odd, mut running) = (0, 0, 0);
    for row in rows {
        let mut words = [0; ROW];
        words.copy_from_slice(row);
        let words = u64::from_le_bytes(words);
        let odd_words = words >> 16 & EVEN;
        all += (words & EVEN) + odd_words;
        odd += odd_words;
        running += all;
    }
    let places = 2 * (all >> 32) + halves(odd);
    let mut a = halves(all);
    let mut b = WORDS_IN_ROW * halves(running) + weight_after_rows * a - places;
    for (word, place) in rest.zip(0..) {
        let number = u64::from(u16::from_le_bytes([word[0], word[1]]));
        a += number;
        b += (weight_after_rows - place) * number;
    }
    let a = (1 + SWAP * a) % MODULUS;
    let b = (WORDS + SWAP * b) % MODULUS;
    (a as u32) << 16 | b as u32
}

/// The check of a block's first 508 bytes; 0xFFFFFFFF where there are fewer.
pub fn block_check(block: &[u8]) -> u32 {
    block.get(..COVERED).map_or(u32::MAX, sums)
}

/// The check as it stands in the block's last four bytes.
pub fn stored(block: &[u8]) -> u32 {
    be32(block, COVERED)
}

pub fn store(block: &mut [u8], check: u32) {
    put32(block, COVERED, check);
}
