//! Block 0 byte by byte: the places that both versions have, and what sets a version apart.

use crate::check::COVERED;
use crate::octets::all_zero;

/// Places of block 0, whatever its version.
pub mod at {
    pub const VERSION: usize = 0;
    pub const RELEASED: usize = 4;
    pub const ISSUED: usize = 8;
    pub const SECURED: usize = 12;
    pub const FIRST: usize = 16;
    pub const HELD: usize = 18;
    /// Version 1 has its timeout here, two bytes; version 2 has zeros.
    pub const SECONDS: usize = 20;
    pub const KEPT: usize = 22;
    pub const MARKS: usize = 23;
    pub const KEEPALIVE_TIME: usize = 24;
    pub const MAX_PDU_LENGTH: usize = 26;
    /// From here on the versions differ.
    pub const REST: usize = 28;
}

/// A version: where it has the agreed timeout and the label words, and the timeout's unit.
#[derive(Clone, Copy)]
pub struct Layout {
    pub version: u32,
    timeout_at: usize,
    timeout_width: usize,
    /// How many bytes from [`at::SECONDS`] on are zero.
    zeros: usize,
    /// The label words fill the block up to its check.
    labels_at: usize,
    /// The unit in milliseconds.
    unit: u32,
}

/// Seconds in two bytes, 120 words.
pub const ONE: Layout =
    Layout { version: 1, timeout_at: at::SECONDS, timeout_width: 2, zeros: 0, labels_at: at::REST, unit: 1_000 };
/// Milliseconds in four bytes, 119 words.
pub const TWO: Layout =
    Layout { version: 2, timeout_at: at::REST, timeout_width: 4, zeros: 2, labels_at: at::REST + 4, unit: 1 };

impl Layout {
    /// The bytes of the label list.
    #[inline]
    pub fn list(self, block: &[u8]) -> &[u8] {
        &block[self.labels_at..COVERED]
    }

    #[inline]
    pub fn list_mut(self, block: &mut [u8]) -> &mut [u8] {
        &mut block[self.labels_at..COVERED]
    }

    /// The agreed timeout in milliseconds.
    #[inline]
    pub fn timeout(self, block: &[u8]) -> u32 {
        let bytes = &block[self.timeout_at..][..self.timeout_width];
        bytes.iter().fold(0, |number, byte| number << 8 | u32::from(*byte)) * self.unit
    }

    /// Puts a timeout in milliseconds; none where it is no multiple of the unit, or too long for its bytes.
    pub fn put_timeout(self, block: &mut [u8], milliseconds: u32) -> Option<()> {
        let number = (milliseconds / self.unit).to_be_bytes();
        let (beyond, bytes) = number.split_at(number.len() - self.timeout_width);
        block[self.timeout_at..][..self.timeout_width].copy_from_slice(bytes);
        (milliseconds.is_multiple_of(self.unit) && all_zero(beyond)).then_some(())
    }

    /// True where the bytes are zero that this version does not use.
    #[inline]
    pub fn has_zeros(self, block: &[u8]) -> bool {
        all_zero(&block[at::SECONDS..][..self.zeros])
    }
}
