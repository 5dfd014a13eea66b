//! Block 0 while it is rewritten.

use crate::check::{self, COVERED};
use crate::image::{self, block, slot_kind, slot_label, Head};
use crate::labels;
use crate::layout::{at, Layout, TWO};
use crate::message::kinds;
use crate::octets::{all_zero, put16, put32};
use cabinet::{BLOCK_SIZE, IMAGE_SIZE, SLOTS};

/// A copy of block 0 that goes back as a whole, or not at all.
pub struct Draft([u8; BLOCK_SIZE]);

impl Draft {
    /// A copy of an image's block 0.
    pub fn of(image: &[u8]) -> Self {
        let mut block = [0; BLOCK_SIZE];
        block.copy_from_slice(&image[..BLOCK_SIZE]);
        Draft(block)
    }

    /// Block 0 with kept 0: state released.
    pub fn released() -> Self {
        Draft::empty(TWO)
    }

    /// Zeros of a version.
    fn empty(layout: Layout) -> Self {
        let mut block = [0; BLOCK_SIZE];
        put32(&mut block, at::VERSION, layout.version);
        Draft(block)
    }

    /// A sound block 0 of one version in another; none where that has no room for all of it.
    pub fn moved(block: &[u8], from: Layout, to: Layout) -> Option<Self> {
        let Draft(mut new) = Draft::empty(to);
        new[at::RELEASED..at::SECONDS].copy_from_slice(&block[at::RELEASED..at::SECONDS]);
        new[at::KEPT..at::REST].copy_from_slice(&block[at::KEPT..at::REST]);
        to.put_timeout(&mut new, from.timeout(block))?;
        let (words, room) = (from.list(block), to.list_mut(&mut new));
        let (words, beyond) = words.split_at(words.len().min(room.len()));
        room[..words.len()].copy_from_slice(words);
        all_zero(beyond).then_some(Draft(new))
    }

    /// Block 0 of a fresh session.
    pub fn fresh(keepalive_time: u16, max_pdu_length: u16) -> Self {
        let mut draft = Draft::released();
        draft.0[at::KEPT] = 1;
        put16(&mut draft.0, at::KEEPALIVE_TIME, keepalive_time);
        put16(&mut draft.0, at::MAX_PDU_LENGTH, max_pdu_length);
        draft
    }

    pub fn list(&self) -> &[u8] {
        image::list(&self.0)
    }

    pub fn list_mut(&mut self) -> &mut [u8] {
        TWO.list_mut(&mut self.0)
    }

    pub fn set_issued(&mut self, number: u32) {
        put32(&mut self.0, at::ISSUED, number);
    }

    pub fn set_secured(&mut self, number: u32) {
        put32(&mut self.0, at::SECURED, number);
    }

    pub fn set_timeout(&mut self, milliseconds: u32) {
        // Every number of milliseconds has its place in this version.
        let _ = TWO.put_timeout(&mut self.0, milliseconds);
    }

    pub fn set_held(&mut self, held: usize) {
        put16(&mut self.0, at::HELD, held as u16);
    }

    /// A message tells whether there are labels to be had: the mark stands from one that says no until one that says
    /// yes.
    pub fn mark_resources(&mut self, kind: u32, mark: u8) {
        match kind {
            kinds::NO_RESOURCES => self.0[at::MARKS] |= mark,
            kinds::RESOURCES_AVAILABLE => self.0[at::MARKS] &= !mark,
            _ => {}
        }
    }

    /// Lets go of the oldest held through the number acknowledged, which stands so many steps after the released one.
    pub fn let_go(&mut self, image: &[u8], head: &Head, ack: u32, steps: usize) {
        for after in 0..steps {
            let slot = block(image, head.block_of(after));
            labels::acknowledged(self.list_mut(), slot_kind(slot), slot_label(slot));
        }
        put32(&mut self.0, at::RELEASED, ack);
        put16(&mut self.0, at::FIRST, ((head.first + steps) % SLOTS) as u16);
        self.set_held(head.held - steps);
    }

    /// Puts the block back where its bytes differ; 1 where they do.
    pub fn store(mut self, image: &mut [u8]) -> u32 {
        if self.0[..COVERED] == image[..COVERED] {
            return 0;
        }
        let sums = check::sums(&self.0[..COVERED]);
        check::store(&mut self.0, sums);
        image[..BLOCK_SIZE].copy_from_slice(&self.0);
        1
    }
}

/// Writes a new image: kept 0, 64 slots of zeros, no IDs and no entries. The bits of the further blocks.
pub fn format(image: &mut [u8; IMAGE_SIZE]) -> u32 {
    image.fill(0);
    Draft::released().store(image);
    image::clear_further(image, 0)
}
