//! The stored image: its blocks, and the checks that restore and every other call make.

use crate::check::{self, COVERED};
use crate::layout::{at, Layout, TWO};
use crate::message;
use crate::octets::{all_zero, be16, be32, put16, put32, put64};
use crate::{index, labels, number, requests};
use cabinet::{
    further, marks, BLOCK_SIZE, ENTRIES_IN_BLOCK, FURTHER, ID_PLACES, IMAGE_SIZE, INDEX_BLOCKS, REQUEST_BLOCK, SLOTS,
};
use core::ops::Range;

pub const SHORTEST: usize = 8;
pub const LONGEST: usize = 480;
const ALL_MARKS: u8 = marks::STOPPED | marks::STOPPING;

/// Places in a slot.
mod slot_at {
    pub const LENGTH: usize = 0;
    pub const KIND: usize = 2;
    pub const ZERO: usize = 3;
    pub const LABEL: usize = 4;
    pub const MESSAGE: usize = 8;
}

/// The bytes of the Requests' IDs in their block, as many as those of the entries in each of theirs.
const IDS: usize = 4 * ID_PLACES;
const _: () = assert!(IDS == index::ENTRIES);

/// An answer that changes nothing, with the block it names.
#[derive(Clone, Copy, Debug)]
pub struct Refusal {
    pub answer: u32,
    pub block: u32,
}

impl Refusal {
    pub fn of(answer: u32) -> Self {
        Refusal { answer, block: 0 }
    }
}

/// The fields of block 0 but the labels.
#[derive(Clone, Copy)]
pub struct Head {
    pub released: u32,
    pub issued: u32,
    pub secured: u32,
    pub first: usize,
    pub held: usize,
    /// Milliseconds.
    pub timeout: u32,
    pub kept: bool,
    pub stopped: bool,
    pub keepalive_time: u16,
    pub max_pdu_length: u16,
    /// The steps from released to issued: how many of the held have a number.
    pub numbered: u32,
}

impl Head {
    /// Reads a block 0 that passed its checks.
    #[inline]
    fn read(block: &[u8], layout: Layout, numbered: u32) -> Self {
        Head {
            released: be32(block, at::RELEASED),
            issued: be32(block, at::ISSUED),
            secured: be32(block, at::SECURED),
            first: usize::from(be16(block, at::FIRST)),
            held: usize::from(be16(block, at::HELD)),
            timeout: layout.timeout(block),
            kept: block[at::KEPT] == 1,
            stopped: block[at::MARKS] & marks::STOPPED != 0,
            keepalive_time: be16(block, at::KEEPALIVE_TIME),
            max_pdu_length: be16(block, at::MAX_PDU_LENGTH),
            numbered,
        }
    }

    /// The block of the message that stands so many after the oldest held.
    pub fn block_of(&self, after: usize) -> usize {
        1 + (self.first + after) % SLOTS
    }
}

/// All of restore's checks.
pub fn examine(image: &[u8]) -> Result<Head, Refusal> {
    examine_as(TWO, image)
}

/// Restore's checks of an image of a version: size, block 0, its fields, each live slot in ring order, then the further
/// blocks. The version is known where it is called, and this is compiled for it.
#[inline(always)]
pub fn examine_as(layout: Layout, image: &[u8]) -> Result<Head, Refusal> {
    let image: &[u8; IMAGE_SIZE] = image.try_into().map_err(|_| Refusal::of(12))?;
    let block = &image[..BLOCK_SIZE];
    if check::stored(block) != check::sums(&block[..COVERED]) {
        return Err(Refusal::of(10));
    }
    let numbered = judge_fields(layout, block).ok_or(Refusal::of(11))?;
    let head = Head::read(block, layout, numbered);
    for after in 0..head.held {
        let number = head.block_of(after);
        judge_slot(self::block(image, number)).map_err(|answer| Refusal { answer, block: number as u32 })?;
    }
    for number in FURTHER {
        judge_further(number, self::block(image, number), layout.list(block))
            .map_err(|answer| Refusal { answer, block: number as u32 })?;
    }
    Ok(head)
}

/// The steps from released to issued, where every field of block 0 is in its range.
#[inline(always)]
fn judge_fields(layout: Layout, block: &[u8]) -> Option<u32> {
    let known = be32(block, at::VERSION) == layout.version && layout.has_zeros(block);
    if !known || block[at::KEPT] > 1 || block[at::MARKS] & !ALL_MARKS != 0 {
        return None;
    }
    if block[at::KEPT] == 0 {
        return all_zero(&block[at::RELEASED..COVERED]).then_some(0);
    }
    let held = be16(block, at::HELD);
    if usize::from(be16(block, at::FIRST)) >= SLOTS || usize::from(held) > SLOTS {
        return None;
    }
    let numbered = number::steps(be32(block, at::RELEASED), be32(block, at::ISSUED))?;
    (numbered <= u32::from(held) && labels::is_sound(layout.list(block))).then_some(numbered)
}

/// Answers 10 or 11 for a live slot whose check or fields are wrong.
fn judge_slot(slot: &[u8]) -> Result<(), u32> {
    let length = usize::from(be16(slot, slot_at::LENGTH));
    let end = slot_at::MESSAGE + length;
    let padded = (SHORTEST..=LONGEST).contains(&length) && all_zero(&slot[end..COVERED]);
    let summed = if padded { check::whole_rows(end) } else { COVERED };
    if check::stored(slot) != check::sums(&slot[..summed]) {
        return Err(10);
    }
    if padded && slot[slot_at::ZERO] == 0 && message_fits(slot, &slot[slot_at::MESSAGE..end]) {
        Ok(())
    } else {
        Err(11)
    }
}

/// Answers 10 or 11 for a further block whose check or fields are wrong. Zeros need no summing.
fn judge_further(number: usize, block: &[u8], list: &[u8]) -> Result<(), u32> {
    let padded = all_zero(&block[IDS..COVERED]);
    let empty = padded && all_zero(&block[..IDS]);
    let summed = match (empty, padded) {
        (true, _) => 0,
        (_, true) => IDS,
        _ => COVERED,
    };
    if check::stored(block) != check::sums(&block[..summed]) {
        return Err(10);
    }
    let sound = match number {
        REQUEST_BLOCK => requests::stand_once(list, &block[..IDS]),
        _ => empty || index::is_sound(list, number - INDEX_BLOCKS[0], block),
    };
    if padded && sound {
        Ok(())
    } else {
        Err(11)
    }
}

/// True where a slot's message may be queued and has the kind and label that the slot shows.
fn message_fits(slot: &[u8], msg: &[u8]) -> bool {
    message::read(msg).is_some_and(|read| {
        message::may_be_queued(&read) && read.kind == slot_kind(slot) && message::slot_label(&read) == slot_label(slot)
    })
}

/// A block by its number.
pub fn block(image: &[u8], number: usize) -> &[u8] {
    &image[number * BLOCK_SIZE..][..BLOCK_SIZE]
}

fn block_mut(image: &mut [u8], number: usize) -> &mut [u8] {
    &mut image[number * BLOCK_SIZE..][..BLOCK_SIZE]
}

pub fn slot_kind(slot: &[u8]) -> u32 {
    u32::from(slot[slot_at::KIND])
}

pub fn slot_label(slot: &[u8]) -> u32 {
    be32(slot, slot_at::LABEL)
}

/// Where the message lies in a live slot.
pub fn message_place(slot: &[u8]) -> Range<usize> {
    let length = usize::from(be16(slot, slot_at::LENGTH));
    slot_at::MESSAGE..slot_at::MESSAGE + length
}

/// The message in a live slot.
pub fn slot_message(slot: &[u8]) -> &[u8] {
    &slot[message_place(slot)]
}

/// Writes a message of at most 480 bytes to a slot, whole.
pub fn write_slot(image: &mut [u8], block: usize, msg: &[u8], kind: u32, label: u32) {
    let slot = block_mut(image, block);
    let end = slot_at::MESSAGE + msg.len();
    put16(slot, slot_at::LENGTH, msg.len() as u16);
    slot[slot_at::KIND] = kind as u8;
    slot[slot_at::ZERO] = 0;
    put32(slot, slot_at::LABEL, label);
    slot[slot_at::MESSAGE..end].copy_from_slice(msg);
    slot[end..COVERED].fill(0);
    let sums = check::sums(&slot[..check::whole_rows(end)]);
    check::store(slot, sums);
}

/// The bytes of the Requests' IDs.
pub fn ids(image: &[u8]) -> &[u8] {
    &block(image, REQUEST_BLOCK)[..IDS]
}

/// Puts a Request's ID beside its word; tells the block where its bytes change.
pub fn write_id(image: &mut [u8], place: usize, id: u32) -> u32 {
    if labels::word(ids(image), place) == id {
        return 0;
    }
    let block = block_mut(image, REQUEST_BLOCK);
    labels::set_word(block, place, id);
    seal_further(block);
    further::REQUESTS
}

/// Puts the entry of a label's FEC beside its word; tells the block where its bytes change.
pub fn write_entry(image: &mut [u8], place: usize, entry: u64) -> u32 {
    if index::entry_at(image, place) == entry {
        return 0;
    }
    let k = place / ENTRIES_IN_BLOCK;
    let block = block_mut(image, INDEX_BLOCKS[k]);
    put64(block, index::ENTRY * (place % ENTRIES_IN_BLOCK), entry);
    seal_further(block);
    further::INDEX[k]
}

/// Stores the check of a further block of a sound image, which ends with zeros.
fn seal_further(block: &mut [u8]) {
    let sums = check::sums(&block[..IDS]);
    check::store(block, sums);
}

/// Makes the further blocks behind those that are there new: zeros with their check. Their bits.
pub fn clear_further(image: &mut [u8; IMAGE_SIZE], there: usize) -> u32 {
    for number in &FURTHER[there..] {
        let block = block_mut(image, *number);
        block.fill(0);
        check::store(block, check::sums(&[]));
    }
    further::ALL & !0 << there
}

/// The bytes of the label list in block 0.
pub fn list(block: &[u8]) -> &[u8] {
    TWO.list(block)
}
