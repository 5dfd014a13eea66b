//! The calls of a cabinet's session and their results, as the library and the model both offer them.
//!
//! Tests, benchmarks and the pair are written once against [`Cabinet`]; numbers mean what the C boundary says.

#![no_std]
#![forbid(unsafe_code)]

/// The size of a stored image.
pub const IMAGE_SIZE: usize = BLOCKS * BLOCK_SIZE;
/// The size of each of its blocks.
pub const BLOCK_SIZE: usize = 512;
/// Block 0, 64 slots, and the further blocks.
pub const BLOCKS: usize = 1 + SLOTS + FURTHER.len();
/// The most messages that are held, each in a slot of its own.
pub const SLOTS: usize = 64;
/// The label words.
pub const PLACES: usize = 119;
/// The message IDs beside them: the last has no word, and may be anything.
pub const ID_PLACES: usize = 120;
/// The entries of the index beside them, as many, in two blocks.
pub const ENTRY_PLACES: usize = INDEX_BLOCKS.len() * ENTRIES_IN_BLOCK;
/// How many entries a block of the index has.
pub const ENTRIES_IN_BLOCK: usize = 60;

/// The blocks behind the slots, in the order in which they are stored and judged; the k-th is bit k of
/// [`Outcome::further`].
pub const FURTHER: [usize; 3] = [REQUEST_BLOCK, INDEX_BLOCKS[0], INDEX_BLOCKS[1]];
/// The block of the open Requests' message IDs, by its number.
pub const REQUEST_BLOCK: usize = 65;
/// The blocks of the index: the prefix of each listed label's FEC.
pub const INDEX_BLOCKS: [usize; 2] = [66, 67];
/// The size of an image that a release without Requests stored: it lacks all further blocks.
pub const IMAGE_SIZE_WITHOUT_REQUESTS: usize = REQUEST_BLOCK * BLOCK_SIZE;
/// The size of an image that a release without the index stored.
pub const IMAGE_SIZE_WITHOUT_INDEX: usize = INDEX_BLOCKS[0] * BLOCK_SIZE;

/// Bits that say which end has told the other that it has no labels to give; they stay over a break.
pub mod marks {
    /// The peer has told us: no new Requests.
    pub const STOPPED: u8 = 2;
    /// We have told the peer.
    pub const STOPPING: u8 = 4;
}

/// The phases by their numbers.
pub mod phase {
    pub const IDLE: u32 = 0;
    pub const INIT_WAIT: u32 = 1;
    pub const UP_FT: u32 = 2;
    pub const UP_PLAIN: u32 = 3;
    pub const FAILED: u32 = 4;
}

/// The bits of [`Session::flags`]. One that the phase does not bear is not read, and written as 0.
pub mod flags {
    /// UpFT: both ends had kept their state when the connection began.
    pub const RESUMED: u32 = 1;
}

/// The part of the state that is not in the image: the phase and, by phase, our proposed timeout in milliseconds or the
/// count sent, and whether the connection is resumed.
#[derive(Clone, Copy, Debug, Default, PartialEq, Eq)]
pub struct Session {
    pub phase: u32,
    pub value: u32,
    pub flags: u32,
}

impl Session {
    /// A session with no flags.
    pub const fn new(phase: u32, value: u32) -> Self {
        Session { phase, value, flags: 0 }
    }

    /// UpFT on a resumed connection, with so many sent.
    pub const fn resumed(sent: u32) -> Self {
        Session { phase: phase::UP_FT, value: sent, flags: flags::RESUMED }
    }

    pub const fn is_resumed(&self) -> bool {
        self.phase == phase::UP_FT && self.flags & flags::RESUMED != 0
    }
}

/// What a call on an image did, and what its owner has to store.
#[derive(Clone, Copy, Debug, Default, PartialEq, Eq)]
pub struct Outcome {
    pub answer: u32,
    pub block: u32,
    pub session: Session,
    pub length: u32,
    pub slot: u32,
    pub block0: u32,
    /// The blocks behind the slots whose bytes changed, a bit each; see [`FURTHER`].
    pub further: u32,
    /// Receive: numbers that the peer left out before this one; Send next: messages of ours that were passed over.
    pub left_out: u32,
}

impl Outcome {
    /// The further blocks whose bytes changed, in their order.
    pub fn further_blocks(&self) -> impl Iterator<Item = usize> {
        further::blocks(self.further)
    }

    /// What the owner stores, in this order: the slot, the further blocks, block 0. Output leaves after that.
    pub fn stores(&self) -> impl Iterator<Item = usize> {
        let slot = (self.slot != 0).then_some(self.slot as usize);
        slot.into_iter().chain(self.further_blocks()).chain((self.block0 != 0).then_some(0))
    }
}

/// The bits of [`Outcome::further`] and [`Extended::further`].
pub mod further {
    use super::FURTHER;

    /// Block 65.
    pub const REQUESTS: u32 = 1;
    /// Blocks 66 and 67.
    pub const INDEX: [u32; 2] = [2, 4];
    /// All of them, as after format.
    pub const ALL: u32 = (1 << FURTHER.len()) - 1;

    /// The blocks that are named by their bits.
    pub fn blocks(bits: u32) -> impl Iterator<Item = usize> {
        FURTHER.into_iter().enumerate().filter(move |(bit, _)| bits >> bit & 1 != 0).map(|(_, block)| block)
    }
}

/// What the owner gives to [`Cabinet::open`]: our parameters, and a proposed timeout where it has one.
#[derive(Clone, Copy, Debug, Default, PartialEq, Eq)]
pub struct Opening {
    pub message_id: u32,
    pub keepalive_time: u16,
    pub max_pdu_length: u16,
    pub receiver_lsr: u32,
    pub receiver_space: u16,
    /// Milliseconds in the published form; in the draft's seconds, where more than 65,535 are 65,535.
    pub proposal: Option<u32>,
    /// Bit A: labels are asked for before they are offered.
    pub on_demand: bool,
    /// FT Session of our Init in RFC 3479's form, else in the draft's.
    pub published: bool,
}

/// A whole PDU judged: answer 0 or 4, and the number of its messages.
#[derive(Clone, Copy, Debug, Default, PartialEq, Eq)]
pub struct Pdu {
    pub answer: u32,
    pub count: u32,
}

/// One message of a PDU or of an image, as a part of its bytes.
#[derive(Clone, Copy, Debug, Default, PartialEq, Eq)]
pub struct Part {
    pub answer: u32,
    pub start: u32,
    pub end: u32,
}

/// The bits of [`Message::has`].
pub mod has {
    pub const FEC: u32 = 1;
    pub const LABEL: u32 = 2;
    pub const STATUS: u32 = 4;
    pub const PARAMETERS: u32 = 8;
    pub const FT_SESSION: u32 = 16;
    pub const FT_PROTECTION: u32 = 32;
    pub const FT_ACK: u32 = 64;
    pub const REQUEST_ID: u32 = 128;
    pub const FT: u32 = FT_SESSION | FT_PROTECTION | FT_ACK;
}

/// A message read: answer 0, or 22 and all else 0.
#[derive(Clone, Copy, Debug, Default, PartialEq, Eq)]
pub struct Message {
    pub answer: u32,
    pub message_type: u32,
    pub message_id: u32,
    pub kind: u32,
    pub has: u32,
    pub fec_start: u32,
    pub fec_end: u32,
    pub label: u32,
    pub status: u32,
    pub number: u32,
    pub ack: u32,
    pub reconnect: u32,
    pub timeout: u32,
    pub keepalive_time: u32,
    pub max_pdu_length: u32,
    pub request_id: u32,
    pub status_id: u32,
    /// 1: FT Session is in RFC 3479's form, and the timeout in milliseconds; 0: it is in seconds, or there is none.
    pub published: u32,
}

/// The Request that a label word stands for: open 1 and its message ID, or 0 and 0.
#[derive(Clone, Copy, Debug, Default, PartialEq, Eq)]
pub struct Request {
    pub open: u32,
    pub id: u32,
}

/// The prefix of the label that a word lists: indexed 1, its length in bits, and the prefix with its first byte the
/// highest; or 0, 0 and 0 for a label of another FEC, and for a word that lists none.
#[derive(Clone, Copy, Debug, Default, PartialEq, Eq)]
pub struct Prefix {
    pub indexed: u32,
    pub length: u32,
    pub prefix: u32,
}

/// What an image holds: 0, or restore's refusal and all else 0.
#[derive(Clone, Copy, Debug, Default, PartialEq, Eq)]
pub struct Summary {
    pub answer: u32,
    pub block: u32,
    pub kept: u32,
    pub released: u32,
    pub issued: u32,
    pub secured: u32,
    pub held: u32,
    /// Those of the held that have no number yet.
    pub pended: u32,
    /// The words that are not free.
    pub labels: u32,
    /// Milliseconds, 0 for ever.
    pub timeout: u32,
    pub keepalive_time: u32,
    pub max_pdu_length: u32,
    /// Whether Requests are stopped, by the bits of [`marks`].
    pub marks: u32,
}

impl Summary {
    /// The peer has told us that it has no labels to give: no new Requests.
    pub fn is_stopped(&self) -> bool {
        self.marks & u32::from(marks::STOPPED) != 0
    }

    /// We have told the peer so.
    pub fn is_stopping(&self) -> bool {
        self.marks & u32::from(marks::STOPPING) != 0
    }
}

/// All label words written, and how many of them are not free; or a refusal, and no word written.
#[derive(Clone, Copy, Debug, Default, PartialEq, Eq)]
pub struct Words {
    pub answer: u32,
    pub block: u32,
    pub count: u32,
}

/// A stored image of an earlier size made one of this size: answer 0 and the blocks made, or 12 and none.
#[derive(Clone, Copy, Debug, Default, PartialEq, Eq)]
pub struct Extended {
    pub answer: u32,
    pub further: u32,
}

/// An image moved to another version: answer 0 and the bytes written; else no byte, and the block that 10 and 11 name.
#[derive(Clone, Copy, Debug, Default, PartialEq, Eq)]
pub struct Converted {
    pub answer: u32,
    pub block: u32,
    pub length: u32,
}

/// Whether a number may come next, and how many were left out before it: answer 0; or 20 or 30, and none.
#[derive(Clone, Copy, Debug, Default, PartialEq, Eq)]
pub struct Next {
    pub answer: u32,
    pub left_out: u32,
}

/// The signed distance of two FT numbers: answer 0, or 2 and no steps.
#[derive(Clone, Copy, Debug, Default, PartialEq, Eq)]
pub struct Distance {
    pub answer: u32,
    pub steps: i32,
}

/// The session of one cabinet. Every call takes every input; nothing is kept between calls.
pub trait Cabinet {
    fn format(&self, image: &mut [u8]) -> Outcome;
    fn restore(&self, image: &mut [u8]) -> Outcome;
    fn open(&self, image: &[u8], session: Session, opening: &Opening, out: &mut [u8]) -> Outcome;
    fn init_received(&self, image: &mut [u8], session: Session, msg: &[u8]) -> Outcome;
    fn connection_failed(&self, image: &mut [u8], session: Session) -> Outcome;
    /// So many milliseconds have passed since the connection failed.
    fn time_passed(&self, image: &mut [u8], session: Session, elapsed: u32) -> Outcome;
    fn submit(&self, image: &mut [u8], session: Session, msg: &[u8]) -> Outcome;
    fn send_next(&self, image: &mut [u8], session: Session, ack: bool, out: &mut [u8]) -> Outcome;
    fn keepalive(&self, image: &[u8], session: Session, message_id: u32, out: &mut [u8]) -> Outcome;
    fn receive(&self, image: &mut [u8], session: Session, msg: &[u8]) -> Outcome;

    fn pdu_open(&self, pdu: &[u8]) -> Pdu;
    fn pdu_message(&self, pdu: &[u8], at: usize) -> Part;
    fn message_read(&self, msg: &[u8]) -> Message;

    fn distance(&self, from: u32, to: u32) -> Distance;
    fn successor(&self, number: u32) -> u32;
    /// Whether a protected message's number may come after the one secured last.
    fn next_number(&self, secured: u32, number: u32, resumed: bool) -> Next;
    fn lesser_timeout(&self, a: u32, b: u32) -> u32;
    fn block_check(&self, block: &[u8]) -> u32;
    fn label(&self, image: &[u8], place: u32) -> u32;
    fn request_at(&self, image: &[u8], place: u32) -> Request;
    fn prefix_at(&self, image: &[u8], place: u32) -> Prefix;
    fn summarize(&self, image: &[u8]) -> Summary;
    fn labels(&self, image: &[u8], words: &mut [u32]) -> Words;
    /// The message held at a place, 0 the oldest, as a part of the image.
    fn held(&self, image: &[u8], place: u32) -> Part;
    fn extend(&self, image: &mut [u8], stored_len: usize) -> Extended;
    /// Version 1 to 2, into the output.
    fn convert_forward(&self, image: &[u8], out: &mut [u8]) -> Converted;
    /// Version 2 to 1, into the output.
    fn convert_back(&self, image: &[u8], out: &mut [u8]) -> Converted;
}
