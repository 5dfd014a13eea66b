//! What the faults about Requests do wrong, each after the model has made its call rightly.

use super::{put, word_at, Fault, Planted};
use cabinet::{further, phase, Cabinet, Outcome, Session, BLOCK_SIZE, REQUEST_BLOCK};
use model::Model;
use trials::stored::{seal, u32_at, Stored, PLACES, REQUEST};
use trials::wire::{self, types};

fn word(image: &[u8], place: usize) -> u32 {
    u32_at(image, word_at(place))
}

fn set_word(image: &mut [u8], place: usize, word: u32) {
    put(image, word_at(place), &word.to_be_bytes());
}

/// The place of a Request that was open before a call and is not after it.
fn ended(before: &[u8], image: &[u8]) -> Option<usize> {
    (0..PLACES).find(|place| word(before, *place) == REQUEST && word(image, *place) != REQUEST)
}

/// Frees the words of Requests with the IDs given.
fn free_requests(image: &mut [u8], ids: &[u32]) {
    let stored = Stored::read(image);
    let is_meant = |place: &usize| stored.labels[*place] == REQUEST && ids.contains(&stored.ids[*place]);
    for place in (0..PLACES).filter(is_meant) {
        set_word(image, place, 0);
    }
}

/// True where some ID that is not 0 stands twice, wherever that is.
pub fn repeats_id(image: &[u8]) -> bool {
    let mut ids = Stored::read(image).ids.to_vec();
    ids.sort_unstable();
    ids.windows(2).any(|pair| pair[0] == pair[1] && pair[0] != 0)
}

fn tell_block0(before: &[u8], image: &[u8], outcome: &mut Outcome) {
    outcome.block0 = u32::from(image[..BLOCK_SIZE] != before[..BLOCK_SIZE]);
}

/// Puts 0 for the ID of a Request that has ended, and tells the block.
fn wipe_id(before: &[u8], image: &mut [u8], outcome: &mut Outcome) {
    let Some(place) = ended(before, image) else { return };
    let block = REQUEST_BLOCK * BLOCK_SIZE;
    image[block + 4 * place..][..4].fill(0);
    seal(image, REQUEST_BLOCK);
    outcome.further |= u32::from(image[block..][..BLOCK_SIZE] != before[block..][..BLOCK_SIZE]);
}

impl Planted {
    /// Submit, whatever it answered.
    pub fn wrong_submission(&self, before: &[u8], image: &mut [u8], given: Session, msg: &[u8], outcome: &mut Outcome) {
        let accepted = outcome.answer == 0;
        let asks = accepted && wire::message_type(msg) == types::REQUEST;
        match self.0 {
            Fault::HidesFurther => outcome.further = 0,
            Fault::LeavesIds if outcome.further == further::REQUESTS => {
                image[REQUEST_BLOCK * BLOCK_SIZE..].copy_from_slice(&before[REQUEST_BLOCK * BLOCK_SIZE..]);
                outcome.further = 0;
            }
            Fault::NamesFurtherInVain if accepted => outcome.further = further::REQUESTS,
            Fault::WipesIds if accepted => wipe_id(before, image, outcome),
            Fault::ForgetsMask if asks && Stored::read(before).ids.contains(&wire::message_id(msg)) => {
                image.copy_from_slice(before);
                *outcome = Outcome { answer: 6, session: given, ..Outcome::default() };
            }
            Fault::StopsAfterPhase if outcome.answer == 14 && given.phase != phase::UP_FT => outcome.answer = 15,
            Fault::StopsNothing if outcome.answer == 14 => {
                put(image, 23, &[0]);
                *outcome = Model.submit(image, given, msg);
                put(image, 23, &before[23..24]);
            }
            _ => {}
        }
    }

    /// Receive, where it accepted a message in UpFT.
    pub fn wrong_reception(&self, before: &[u8], image: &mut [u8], outcome: &mut Outcome) {
        match self.0 {
            Fault::WipesIds => wipe_id(before, image, outcome),
            Fault::TakesFirstFreeForAnswer => {
                let taken = ended(before, image).filter(|place| word(image, *place) != 0);
                let free = (0..PLACES).find(|place| word(image, *place) == 0);
                if let (Some(taken), Some(free)) = (taken, free.filter(|free| Some(*free) < taken)) {
                    let word = word(image, taken);
                    set_word(image, taken, 0);
                    set_word(image, free, word);
                }
            }
            Fault::AckEndsRequest => {
                let held = Stored::read(before).queue;
                let let_go = held.len() - Stored::read(image).queue.len();
                let requests = held[..let_go].iter().filter(|queued| queued.kind == 7);
                let ids: Vec<u32> = requests.map(|queued| wire::message_id(&queued.bytes)).collect();
                free_requests(image, &ids);
                tell_block0(before, image, outcome);
            }
            _ => {}
        }
    }

    /// A Mapping that names ID 0 as this cabinet reads it.
    pub fn read_wrongly(&self, msg: &[u8]) -> Vec<u8> {
        let mut msg = msg.to_vec();
        let zero = msg.windows(8).position(|tlv| tlv == [6, 0, 0, 4, 0, 0, 0, 0]);
        if let (Fault::ZeroIdIsNone, Some(at)) = (self.0, zero) {
            msg[at..at + 2].copy_from_slice(&wire::tlvs::UNLISTED.to_be_bytes());
        }
        msg
    }

    /// Restore and connection failed, where they answered 0.
    pub fn wrong_break(&self, before: &[u8], image: &mut [u8], outcome: &mut Outcome) {
        match self.0 {
            Fault::BreakEndsRequests => {
                let ids = Stored::read(image).open_requests();
                free_requests(image, &ids);
                tell_block0(before, image, outcome);
            }
            Fault::BreakForgetsMarks => {
                put(image, 23, &[0]);
                tell_block0(before, image, outcome);
            }
            _ => {}
        }
    }

    /// Restore, where it refused the block of the IDs.
    pub fn wrong_refusal(&self, image: &[u8], outcome: &mut Outcome) {
        let mut mended = image.to_vec();
        let block = REQUEST_BLOCK * BLOCK_SIZE;
        match self.0 {
            Fault::SkipsIdsOfIdle if image[22] == 0 => mended[block..][..BLOCK_SIZE].fill(0),
            Fault::SkipsZerosAfterIds if outcome.answer == 11 => mended[block + 480..block + 508].fill(0),
            _ => return,
        }
        seal(&mut mended, REQUEST_BLOCK);
        *outcome = Model.restore(&mut mended);
    }
}
