//! Images that fail a check: wrong sizes, bad blocks, and each field wrong in turn with its block sealed again.

use crate::random::Random;
use crate::stored::{
    entry_at, seal, steps_after, u16_at, u32_at, word, word_lists_label, Stored, Version, ENTRY_PLACES, ID_PLACES,
    REQUEST,
};
use cabinet::{BLOCK_SIZE, FURTHER, INDEX_BLOCKS, REQUEST_BLOCK};

/// A fault in one field; the block that bears it is sealed again afterwards.
#[derive(Clone, Copy)]
pub struct FieldFault {
    pub name: &'static str,
    pub apply: fn(&mut [u8]),
}

const fn fault(name: &'static str, apply: fn(&mut [u8])) -> FieldFault {
    FieldFault { name, apply }
}

fn put(block: &mut [u8], at: usize, bytes: &[u8]) {
    block[at..at + bytes.len()].copy_from_slice(bytes);
}

/// The version of a block 0 that has one.
fn version(block: &[u8]) -> Version {
    Version::of(block).unwrap_or(Version::Two)
}

fn put_word(block: &mut [u8], place: usize, word: u32) {
    put(block, version(block).words_at() + 4 * place, &word.to_be_bytes());
}

/// Puts the last word but so many.
fn put_last_word(block: &mut [u8], but: usize, word: u32) {
    put_word(block, version(block).places() - 1 - but, word);
}

/// Sets issued so many steps after released.
fn issue(block: &mut [u8], steps: u64) {
    let issued = steps_after(u32_at(block, 4), steps);
    put(block, 8, &issued.to_be_bytes());
}

/// Faults of a block 0 of either version with kept 1.
pub const KEPT_FAULTS: &[FieldFault] = &[
    fault("version 0", |b| b[3] = 0),
    fault("the other version", |b| b[3] = 3 - b[3]),
    fault("version 3", |b| b[3] = 3),
    fault("version's first byte", |b| b[0] = 1),
    fault("first slot 64", |b| put(b, 16, &[0, 64])),
    fault("first slot 256", |b| put(b, 16, &[1, 0])),
    fault("held 65", |b| put(b, 18, &[0, 65])),
    fault("held 65535", |b| put(b, 18, &[255, 255])),
    fault("kept 2", |b| b[22] = 2),
    fault("kept 255", |b| b[22] = 255),
    fault("kept 0 with state", |b| b[22] = 0),
    fault("code 7 with label 1", |b| put_word(b, 60, word(1, 7))),
    fault("issued past held", |b| issue(b, u64::from(u16_at(b, 18)) + 1)),
    fault("issued behind released", |b| {
        put(b, 4, &[0, 0, 0, 9]);
        put(b, 8, &[0, 0, 0, 8]);
    }),
    fault("issued 0, released not", |b| {
        put(b, 4, &[255, 255, 255, 255]);
        put(b, 8, &[0, 0, 0, 0]);
    }),
    fault("issued 65 from 0", |b| {
        put(b, 4, &[0, 0, 0, 0]);
        put(b, 8, &[0, 0, 0, 65]);
    }),
    fault("code 0 with a label", |b| put_last_word(b, 0, 16)),
    fault("code 0 with label 1", |b| put_word(b, 0, 1)),
    fault("code 7 with a label", |b| put_word(b, 60, word(500_000, 7))),
    fault("code 10", |b| put_word(b, 60, word(500_000, 10))),
    fault("code 8 without a label", |b| put_word(b, 60, word(0, 8))),
    fault("code 9 with label 15", |b| put_word(b, 60, word(15, 9))),
    fault("label given and withdrawn", |b| {
        put_word(b, 0, word(500_000, 1));
        put_last_word(b, 0, word(500_000, 8));
    }),
    fault("label twice withdrawn", |b| {
        put_word(b, 0, word(500_000, 9));
        put_last_word(b, 0, word(500_000, 8));
    }),
    fault("code 4095", |b| put_word(b, 60, word(500_000, 4095))),
    fault("label 15 given", |b| put_word(b, 3, word(15, 1))),
    fault("label 0 used", |b| put_word(b, 3, word(0, 3))),
    fault("label twice on our side", |b| {
        put_word(b, 0, word(500_000, 1));
        put_last_word(b, 0, word(500_000, 2));
    }),
    fault("label twice given", |b| {
        put_word(b, 7, word(500_000, 1));
        put_word(b, 8, word(500_000, 1));
    }),
    fault("label twice on their side", |b| {
        put_word(b, 0, word(1_048_575, 3));
        put_last_word(b, 0, word(1_048_575, 6));
    }),
    fault("label asked back and releasing", |b| {
        put_last_word(b, 1, word(16, 4));
        put_last_word(b, 0, word(16, 5));
    }),
];

/// Faults of a block 0 of version 2, kept or not: where version 1 has its seconds there are zeros.
pub const SECONDS_FAULTS: &[FieldFault] = &[
    fault("byte 20", |b| b[20] = 1),
    fault("byte 21", |b| b[21] = 5),
    fault("bytes 20 and 21", |b| put(b, 20, &[255, 255])),
];

/// Faults of a block 0 of either version with kept 0.
pub const IDLE_FAULTS: &[FieldFault] = &[
    fault("version 0, kept 0", |b| b[3] = 0),
    fault("the other version, kept 0", |b| b[3] = 3 - b[3]),
    fault("released, kept 0", |b| b[7] = 1),
    fault("issued, kept 0", |b| b[11] = 1),
    fault("secured, kept 0", |b| b[12] = 1),
    fault("first slot, kept 0", |b| b[17] = 1),
    fault("held, kept 0", |b| b[19] = 1),
    fault("timeout, kept 0", |b| {
        let last = version(b).timeout_at().end - 1;
        b[last] = 5;
    }),
    fault("timeout's first byte, kept 0", |b| {
        let first = version(b).timeout_at().start;
        b[first] = 1;
    }),
    fault("kept 2, all else zero", |b| b[22] = 2),
    fault("KeepAlive time, kept 0", |b| b[24] = 1),
    fault("maximum PDU length, kept 0", |b| b[27] = 1),
    fault("first word, kept 0", |b| put_word(b, 0, word(16, 1))),
    fault("last word, kept 0", |b| put_last_word(b, 0, word(16, 6))),
    fault("open Request, kept 0", |b| put_word(b, 60, REQUEST)),
    fault("byte 507, kept 0", |b| b[507] = 1),
];

/// Faults of a slot that holds a Mapping: FEC of 8 bytes, then the label, then an unlisted TLV of 4 bytes.
pub const MAPPING_FAULTS: &[FieldFault] = &[
    fault("length 0", |b| put(b, 0, &[0, 0])),
    fault("length 7", |b| put(b, 0, &[0, 7])),
    fault("length 481", |b| put(b, 0, &[1, 225])),
    fault("length 65535", |b| put(b, 0, &[255, 255])),
    fault("length one more", |b| b[1] += 1),
    fault("length one less", |b| b[1] -= 1),
    fault("kind 0", |b| b[2] = 0),
    fault("kind 2 for a Mapping", |b| b[2] = 2),
    fault("kind 7", |b| b[2] = 7),
    fault("kind 10", |b| b[2] = 10),
    fault("byte 3", |b| b[3] = 1),
    fault("another label", |b| b[7] ^= 1),
    fault("no label for a Mapping", |b| put(b, 4, &[255; 4])),
    fault("padding's first byte", |b| {
        let end = 8 + usize::from(u16_at(b, 0));
        b[end] = 1;
    }),
    fault("padding's last byte", |b| b[507] = 1),
    fault("message of type Withdraw", |b| b[9] = 2),
    fault("message of type Request", |b| b[9] = 1),
    fault("message of an unknown type", |b| b[8] = 0x3F),
    fault("message length one more", |b| b[11] += 1),
    fault("FEC length 255", |b| b[19] = 255),
    fault("FEC gone", |b| put(b, 16, &[0x3E, 0x02])),
    fault("label TLV gone", |b| put(b, 28, &[0x3E, 0x02])),
    fault("label TLV of length 3", |b| b[31] = 3),
    fault("label above 1,048,575", |b| b[33] = 0x10),
    fault("FT Protection", |b| put(b, 28, &[0x02, 0x03])),
    fault("FEC twice", |b| put(b, 36, &[0x01, 0x00])),
    fault("FT Protection beside", |b| put(b, 36, &[0x02, 0x03])),
    fault("FT ACK beside", |b| put(b, 36, &[0xC5, 0x04])),
    fault("FT Session beside", |b| put(b, 36, &[0x85, 0x03])),
    fault("Status of length 4", |b| put(b, 36, &[0x03, 0x00])),
];

/// Faults of a slot that holds an Address message.
pub const ADDRESS_FAULTS: &[FieldFault] = &[
    fault("a label for Address", |b| put(b, 4, &[0, 0, 0, 16])),
    fault("label 0 for Address", |b| put(b, 4, &[0; 4])),
    fault("kind 5 for Address", |b| b[2] = 5),
    fault("kind 1 for Address", |b| b[2] = 1),
    fault("message of type KeepAlive", |b| put(b, 8, &[2, 1])),
    fault("message of type Init", |b| put(b, 8, &[2, 0])),
    fault("a Notification without Status", |b| put(b, 8, &[0, 1])),
    fault("a Request without FEC", |b| {
        b[2] = 7;
        put(b, 8, &[4, 1]);
    }),
];

/// Faults of a slot that holds an Abort: FEC of 8 bytes, then the Request's ID.
pub const ABORT_FAULTS: &[FieldFault] = &[
    fault("a label for Abort", |b| put(b, 4, &[0; 4])),
    fault("kind 7 for Abort", |b| b[2] = 7),
    fault("kind 9 for Abort", |b| b[2] = 9),
    fault("Abort without FEC", |b| put(b, 16, &[0x3E, 0x02])),
    fault("Abort without the Request's ID", |b| put(b, 28, &[0x3E, 0x02])),
    fault("Request's ID of length 3", |b| b[31] = 3),
    fault("an Abort made a Request", |b| b[9] = 1),
    fault("an Abort with FT ACK for its ID", |b| put(b, 28, &[0x05, 0x04])),
];

/// Faults of a slot that holds 'No label resources'.
pub const NO_RESOURCES_FAULTS: &[FieldFault] = &[
    fault("kind 6 for kind 9", |b| b[2] = 6),
    fault("kind 9 with E", |b| b[20] |= 0x80),
    fault("kind 9 with status 15", |b| b[23] = 15),
    fault("kind 9 with status 13", |b| b[23] = 13),
];

/// Faults of a further block, whatever block 0 holds.
pub const ZERO_FAULTS: &[FieldFault] = &[
    fault("first byte after the places", |b| b[480] = 1),
    fault("last byte after the places", |b| b[507] = 0x80),
    fault("a byte among those after the places", |b| b[493] = 7),
];

/// Faults of the block of the Requests' IDs, where the first three and the 119th word are open Requests.
pub const ID_FAULTS: &[FieldFault] = &[
    fault("one ID twice", |b| b.copy_within(0..4, 472)),
    fault("one ID twice, side by side", |b| b.copy_within(4..8, 8)),
    fault("ID 0 twice", |b| {
        put(b, 0, &[0; 4]);
        put(b, 472, &[0; 4]);
    }),
];

/// Faults of a block of the index, beside whose first, second and 59th place labels are listed.
pub const ENTRY_FAULTS: &[FieldFault] = &[
    fault("an entry that begins with 2", |b| b[0] = 2),
    fault("an entry that begins with 0", |b| put(b, 8, &[0, 24, 0, 0, 0, 0, 0, 0])),
    fault("a prefix without its first bytes", |b| put(b, 464, &[0, 0, 0, 0, 10, 0, 0, 0])),
    fault("length 33", |b| put(b, 0, &[1, 33, 0, 0, 0, 0, 0, 0])),
    fault("length 255", |b| put(b, 464, &[1, 255, 0, 0, 0, 0, 0, 0])),
    fault("third byte of an entry", |b| put(b, 8, &[1, 24, 1, 0, 10, 0, 0, 0])),
    fault("fourth byte of an entry", |b| put(b, 8, &[1, 24, 0, 1, 10, 0, 0, 0])),
    fault("a bit just past length 23", |b| put(b, 464, &[1, 23, 0, 0, 10, 0, 1, 0])),
    fault("the last bit past length 31", |b| put(b, 0, &[1, 31, 0, 0, 10, 0, 0, 1])),
    fault("a bit past length 0", |b| put(b, 8, &[1, 0, 0, 0, 128, 0, 0, 0])),
    fault("an entry of bytes 255", |b| put(b, 464, &[255; 8])),
];

/// Applies a fault to a block and seals the block again.
pub fn apply(image: &mut [u8], block: usize, fault: &FieldFault) {
    (fault.apply)(&mut image[block * BLOCK_SIZE..][..BLOCK_SIZE]);
    seal(image, block);
}

/// An image of the state, sound in most cases.
pub fn image(random: &mut Random, stored: &Stored) -> Vec<u8> {
    let dead = random.u8();
    let mut image = stored.image(dead);
    let random_further = random.pick(&FURTHER);
    match random.below(100) {
        0..=1 => image.truncate(random.pick(&[0, 1, 511, 512, 33_280, 33_792, 34_815])),
        2 => image.extend(vec![0; random.pick(&[1, 512])]),
        3..=5 => flip(random, &mut image, 0),
        6..=8 if !stored.queue.is_empty() => {
            let block = stored.block_of(random.below(stored.queue.len()));
            flip(random, &mut image, block);
        }
        9..=13 => {
            let faults = if stored.kept { KEPT_FAULTS } else { IDLE_FAULTS };
            apply(&mut image, 0, &random.pick(faults));
        }
        14..=16 if !stored.queue.is_empty() => {
            let block = stored.block_of(random.below(stored.queue.len()));
            spoil_byte(random, &mut image, block);
        }
        17 => spoil_byte(random, &mut image, 0),
        18 => {
            image[23] = random.u8();
            seal(&mut image, 0);
        }
        19 => flip(random, &mut image, random_further),
        20 => apply(&mut image, random_further, &random.pick(ZERO_FAULTS)),
        21..=22 => repeat_id(random, stored, &mut image),
        23 => spoil_byte(random, &mut image, random_further),
        24 => apply(&mut image, 0, &random.pick(SECONDS_FAULTS)),
        25..=26 => spoil_entry(random, stored, &mut image),
        _ => {}
    }
    image
}

/// Gives one ID to two places, mostly those of open Requests.
fn repeat_id(random: &mut Random, stored: &Stored, image: &mut [u8]) {
    let open: Vec<usize> = (0..stored.labels.len()).filter(|place| stored.labels[*place] == REQUEST).collect();
    let mut place = || match random.below(20) {
        0 => ID_PLACES - 1,
        1..=3 => random.below(ID_PLACES),
        _ if open.is_empty() => random.below(ID_PLACES),
        _ => random.pick(&open),
    };
    let (from, to) = (4 * place(), 4 * place());
    image[REQUEST_BLOCK * BLOCK_SIZE..].copy_within(from..from + 4, to);
    seal(image, REQUEST_BLOCK);
}

/// Changes one byte of an entry, mostly of one that counts, and seals its block again.
fn spoil_entry(random: &mut Random, stored: &Stored, image: &mut [u8]) {
    let counts = |place: &usize| word_lists_label(stored.labels[*place]);
    let counting: Vec<usize> = (0..stored.labels.len()).filter(counts).collect();
    let place = match random.below(10) {
        0..=7 if !counting.is_empty() => random.pick(&counting),
        _ => random.below(ENTRY_PLACES),
    };
    let byte = random.below(8);
    image[entry_at(place) + byte] = random.pick(&[0, 1, 2, 32, 33, 64, 255]);
    INDEX_BLOCKS.into_iter().for_each(|block| seal(image, block));
}

/// Flips one bit of a block, its check included.
fn flip(random: &mut Random, image: &mut [u8], block: usize) {
    let at = block * BLOCK_SIZE + random.below(BLOCK_SIZE);
    image[at] ^= 1 << random.below(8);
}

/// Changes one byte of a block, mostly near its start, and seals the block again.
fn spoil_byte(random: &mut Random, image: &mut [u8], block: usize) {
    let at = if random.percent(70) { random.below(32) } else { random.below(508) };
    image[block * BLOCK_SIZE + at] = random.u8();
    seal(image, block);
}
