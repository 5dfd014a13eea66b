//! Stored images as the trials write and read them: plain records laid out and read back by the paper's words.

pub use cabinet::marks::{STOPPED, STOPPING};
pub use cabinet::{ENTRY_PLACES, ID_PLACES, PLACES, SLOTS};

use crate::entries::NO_ENTRY;
use crate::wire::{message_id, request_id};
use cabinet::{BLOCK_SIZE, ENTRIES_IN_BLOCK, IMAGE_SIZE, INDEX_BLOCKS, REQUEST_BLOCK};
use std::ops::Range;

pub const NO_LABEL: u32 = u32::MAX;
/// The word of an open Request: code 7, label part 0.
pub const REQUEST: u32 = 7 << 20;

/// The versions of an image, which differ in block 0 alone.
#[derive(Clone, Copy, Debug, PartialEq, Eq)]
pub enum Version {
    /// Seconds in bytes 20 and 21, 120 words from 28.
    One,
    /// Bytes 20 and 21 zero, milliseconds in bytes 28 to 31, 119 words from 32.
    Two,
}

impl Version {
    pub const fn number(self) -> u8 {
        match self {
            Version::One => 1,
            Version::Two => 2,
        }
    }

    /// The version that an image says it has.
    pub fn of(image: &[u8]) -> Option<Self> {
        [Version::One, Version::Two].into_iter().find(|version| image.starts_with(&[0, 0, 0, version.number()]))
    }

    pub const fn timeout_at(self) -> Range<usize> {
        match self {
            Version::One => 20..22,
            Version::Two => 28..32,
        }
    }

    pub const fn words_at(self) -> usize {
        match self {
            Version::One => 28,
            Version::Two => 32,
        }
    }

    /// How many label words there are.
    pub const fn places(self) -> usize {
        (508 - self.words_at()) / 4
    }

    /// The unit of the timeout in milliseconds.
    pub const fn unit(self) -> u32 {
        match self {
            Version::One => 1_000,
            Version::Two => 1,
        }
    }
}

/// A message in the send store, with the kind and label that its slot shows.
#[derive(Clone, Debug, PartialEq, Eq)]
pub struct Queued {
    pub kind: u8,
    pub label: u32,
    pub bytes: Vec<u8>,
}

/// Everything that an image holds.
#[derive(Clone, Debug, PartialEq, Eq)]
pub struct Stored {
    pub version: Version,
    pub released: u32,
    pub issued: u32,
    pub secured: u32,
    pub first: u16,
    /// In the unit of its version.
    pub timeout: u32,
    pub kept: bool,
    pub marks: u8,
    pub keepalive_time: u16,
    pub max_pdu_length: u16,
    /// As many words as its version has.
    pub labels: Vec<u32>,
    /// The message IDs beside the words; one counts only where its word is an open Request's.
    pub ids: [u32; ID_PLACES],
    /// The entries of the index beside the words; one counts only where its word lists a label.
    pub entries: [u64; ENTRY_PLACES],
    pub queue: Vec<Queued>,
}

impl Stored {
    /// Nothing kept.
    pub fn idle() -> Self {
        Stored {
            version: Version::Two,
            released: 0,
            issued: 0,
            secured: 0,
            first: 0,
            timeout: 0,
            kept: false,
            marks: 0,
            keepalive_time: 0,
            max_pdu_length: 0,
            labels: vec![0; PLACES],
            ids: [0; ID_PLACES],
            entries: [NO_ENTRY; ENTRY_PLACES],
            queue: Vec::new(),
        }
    }

    /// The same state in another version, as 02's fifth ticket moves it; none where that has no room for it: a word
    /// that it lacks is in use, or the timeout is none of its own.
    pub fn moved(&self, to: Version) -> Option<Self> {
        let milliseconds = u64::from(self.timeout) * u64::from(self.version.unit());
        let (timeout, rest) = (milliseconds / u64::from(to.unit()), milliseconds % u64::from(to.unit()));
        let longest = if to == Version::One { u64::from(u16::MAX) } else { u64::from(u32::MAX) };
        let mut labels = self.labels.clone();
        let beyond = labels.drain(to.places().min(labels.len())..).any(|word| word != 0);
        labels.resize(to.places(), 0);
        let has_room = rest == 0 && timeout <= longest && !beyond;
        has_room.then(|| Stored { version: to, timeout: timeout as u32, labels, ..self.clone() })
    }

    /// Lays the record out as an image; slots that are not live are filled with the byte given.
    pub fn image(&self, dead: u8) -> Vec<u8> {
        let mut image = vec![dead; IMAGE_SIZE];
        let block = &mut image[..BLOCK_SIZE];
        block.fill(0);
        block[3] = self.version.number();
        block[4..8].copy_from_slice(&self.released.to_be_bytes());
        block[8..12].copy_from_slice(&self.issued.to_be_bytes());
        block[12..16].copy_from_slice(&self.secured.to_be_bytes());
        block[16..18].copy_from_slice(&self.first.to_be_bytes());
        block[18..20].copy_from_slice(&(self.queue.len() as u16).to_be_bytes());
        let timeout = self.version.timeout_at();
        block[timeout.clone()].copy_from_slice(&self.timeout.to_be_bytes()[4 - timeout.len()..]);
        block[22] = self.kept.into();
        block[23] = self.marks;
        block[24..26].copy_from_slice(&self.keepalive_time.to_be_bytes());
        block[26..28].copy_from_slice(&self.max_pdu_length.to_be_bytes());
        put_words(&mut block[self.version.words_at()..508], &self.labels);
        for (after, queued) in self.queue.iter().enumerate() {
            write_slot(&mut image, self.block_of(after), queued);
        }
        write_words(&mut image, REQUEST_BLOCK, &self.ids);
        for (block, entries) in INDEX_BLOCKS.into_iter().zip(self.entries.chunks(ENTRIES_IN_BLOCK)) {
            let halves = entries.iter().flat_map(|entry| [(entry >> 32) as u32, *entry as u32]);
            write_words(&mut image, block, &halves.collect::<Vec<u32>>());
        }
        seal(&mut image, 0);
        image
    }

    /// The IDs of the open Requests.
    pub fn open_requests(&self) -> Vec<u32> {
        let beside = self.labels.iter().zip(self.ids);
        beside.filter(|(word, _)| **word == REQUEST).map(|(_, id)| id).collect()
    }

    /// The labels with their codes and the entries that count beside them.
    pub fn listed(&self) -> impl Iterator<Item = (u32, u32, u64)> + '_ {
        let beside = self.labels.iter().zip(self.entries).filter(|(word, _)| word_lists_label(**word));
        beside.map(|(word, entry)| (word & 0xF_FFFF, word >> 20, entry))
    }

    /// The state that the record stands for: IDs and entries that do not count are 0, also those that have no word.
    pub fn state(mut self) -> Self {
        for (place, entry) in self.entries.iter_mut().enumerate() {
            if !self.labels.get(place).is_some_and(|word| word_lists_label(*word)) {
                *entry = NO_ENTRY;
            }
        }
        for (place, id) in self.ids.iter_mut().enumerate() {
            if self.labels.get(place) != Some(&REQUEST) {
                *id = 0;
            }
        }
        self
    }

    /// Frees the labels that are used without protection, as a break does.
    pub fn after_break(mut self) -> Self {
        for word in self.labels.iter_mut().filter(|word| **word >> 20 == 6) {
            *word = 0;
        }
        self
    }

    /// How many of the held messages have a number.
    pub fn numbered(&self) -> usize {
        steps_between(self.released, self.issued) as usize
    }

    /// How many messages a Send passes over, with so many sent, word for word as the paper has it: those with a number,
    /// one after another, that are Requests whose Abort is held behind them.
    pub fn left_out_from(&self, sent: usize) -> usize {
        let names = |abort: &Queued, request: &Queued| request_id(&abort.bytes) == Some(message_id(&request.bytes));
        let is_left_out = |place: &usize| {
            let (request, behind) = (&self.queue[*place], &self.queue[place + 1..]);
            request.kind == 7 && behind.iter().any(|abort| abort.kind == 8 && names(abort, request))
        };
        (sent..self.numbered()).take_while(is_left_out).count()
    }

    /// The block of the message that stands so many after the oldest held.
    pub fn block_of(&self, after: usize) -> usize {
        1 + (usize::from(self.first) + after) % SLOTS
    }

    /// Reads an image of any version whose fields are in their ranges.
    pub fn read(image: &[u8]) -> Self {
        let version = Version::of(image).unwrap_or(Version::Two);
        let word = |place: usize| u32_at(image, version.words_at() + 4 * place);
        let timeout = &image[version.timeout_at()];
        let mut stored = Stored {
            version,
            released: u32_at(image, 4),
            issued: u32_at(image, 8),
            secured: u32_at(image, 12),
            first: u16_at(image, 16),
            timeout: timeout.iter().fold(0, |number, byte| number << 8 | u32::from(*byte)),
            kept: image[22] == 1,
            marks: image[23],
            keepalive_time: u16_at(image, 24),
            max_pdu_length: u16_at(image, 26),
            labels: (0..version.places()).map(word).collect(),
            ids: std::array::from_fn(|place| u32_at(image, REQUEST_BLOCK * BLOCK_SIZE + 4 * place)),
            entries: std::array::from_fn(|place| u64_at(image, entry_at(place))),
            queue: Vec::new(),
        };
        let held = usize::from(u16_at(image, 18));
        stored.queue = (0..held).map(|after| read_slot(image, stored.block_of(after))).collect();
        stored
    }
}

pub fn u16_at(bytes: &[u8], at: usize) -> u16 {
    u16::from_be_bytes([bytes[at], bytes[at + 1]])
}

pub fn u32_at(bytes: &[u8], at: usize) -> u32 {
    u32::from_be_bytes([bytes[at], bytes[at + 1], bytes[at + 2], bytes[at + 3]])
}

pub fn u64_at(bytes: &[u8], at: usize) -> u64 {
    u64::from(u32_at(bytes, at)) << 32 | u64::from(u32_at(bytes, at + 4))
}

/// Where the entry of a place stands in an image.
pub fn entry_at(place: usize) -> usize {
    INDEX_BLOCKS[place / ENTRIES_IN_BLOCK] * BLOCK_SIZE + 8 * (place % ENTRIES_IN_BLOCK)
}

/// A block of words, zeros behind them, and its check.
fn write_words(image: &mut [u8], block: usize, words: &[u32]) {
    let bytes = &mut image[block * BLOCK_SIZE..][..BLOCK_SIZE];
    bytes.fill(0);
    put_words(bytes, words);
    seal(image, block);
}

fn put_words(bytes: &mut [u8], words: &[u32]) {
    for (bytes, word) in bytes.chunks_exact_mut(4).zip(words) {
        bytes.copy_from_slice(&word.to_be_bytes());
    }
}

fn write_slot(image: &mut [u8], block: usize, queued: &Queued) {
    let slot = &mut image[block * BLOCK_SIZE..][..BLOCK_SIZE];
    slot.fill(0);
    slot[0..2].copy_from_slice(&(queued.bytes.len() as u16).to_be_bytes());
    slot[2] = queued.kind;
    slot[4..8].copy_from_slice(&queued.label.to_be_bytes());
    slot[8..8 + queued.bytes.len()].copy_from_slice(&queued.bytes);
    seal(image, block);
}

fn read_slot(image: &[u8], block: usize) -> Queued {
    let slot = &image[block * BLOCK_SIZE..][..BLOCK_SIZE];
    let length = usize::from(u16_at(slot, 0));
    Queued { kind: slot[2], label: u32_at(slot, 4), bytes: slot[8..8 + length].to_vec() }
}

/// The check of a block word for word as the paper has it: A, then B, a remainder at each step.
pub fn check(block: &[u8]) -> (u16, u16) {
    let (mut a, mut b) = (1u32, 0u32);
    for at in (0..508).step_by(2) {
        a = (a + u32::from(u16_at(block, at))) % 65_535;
        b = (b + a) % 65_535;
    }
    (a as u16, b as u16)
}

/// Writes the right check into a block.
pub fn seal(image: &mut [u8], block: usize) {
    let bytes = &mut image[block * BLOCK_SIZE..][..BLOCK_SIZE];
    let (a, b) = check(bytes);
    bytes[508..510].copy_from_slice(&a.to_be_bytes());
    bytes[510..512].copy_from_slice(&b.to_be_bytes());
}

/// A label word.
pub fn word(label: u32, code: u32) -> u32 {
    label + 1_048_576 * code
}

/// True where a word lists a label: neither a free word nor an open Request's does.
pub fn word_lists_label(word: u32) -> bool {
    matches!(word >> 20, 1..=6 | 8 | 9)
}

/// The number that stands so many steps after another on the circle 1 to 0xFFFFFFFF.
pub fn steps_after(number: u32, steps: u64) -> u32 {
    if steps == 0 {
        return number;
    }
    let circle = u64::from(u32::MAX);
    let zero_based = (u64::from(number) + steps - 1) % circle;
    zero_based as u32 + 1
}

/// The steps from one number to another that is not behind it on the circle.
pub fn steps_between(from: u32, to: u32) -> u32 {
    to.wrapping_sub(from) - u32::from(to < from)
}
