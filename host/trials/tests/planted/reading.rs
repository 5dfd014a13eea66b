//! What is done wrong where an image is judged, and where it is only read.

use super::{published, requests, word_at, Fault, Planted};
use cabinet::{Cabinet, Outcome, Part, Summary, Words, BLOCK_SIZE, IMAGE_SIZE, PLACES, REQUEST_BLOCK, SLOTS};
use model::Model;
use trials::stored::{check, seal, u16_at, u32_at, Stored, REQUEST};

fn is_bad(image: &[u8], block: usize) -> bool {
    let block = &image[block * 512..][..512];
    check(block) != (u16_at(block, 508), u16_at(block, 510))
}

/// The words that are not free, of an image that may be unsound.
fn used(image: &[u8]) -> u32 {
    (0..PLACES).filter(|place| u32_at(image, word_at(*place)) != 0).count() as u32
}

impl Planted {
    /// What restore makes of an image before it frees anything.
    pub fn wrong_judgement(&self, image: &mut [u8]) -> Outcome {
        let mut outcome = Model.restore(image);
        match self.0 {
            Fault::NamesNoBlock => outcome.block = 0,
            Fault::ChecksDeadSlots if outcome.answer == 0 && (1..65).any(|block| is_bad(image, block)) => {
                outcome.answer = 10;
            }
            Fault::SkipsPadding if outcome.answer == 11 && (1..65).contains(&outcome.block) => {
                let mut mended = image.to_vec();
                let slot = outcome.block as usize * 512;
                let end = slot + (8 + usize::from(u16_at(image, slot))).min(508);
                mended[end..slot + 508].fill(0);
                seal(&mut mended, outcome.block as usize);
                outcome = Model.restore(&mut mended);
            }
            Fault::TakesBothZeros if outcome.answer == 10 && outcome.block == 0 => {
                let mut mended = image.to_vec();
                for at in [508, 510] {
                    if mended[at..at + 2] == [255, 255] {
                        mended[at..at + 2].fill(0);
                    }
                }
                outcome = Model.restore(&mut mended);
            }
            Fault::CountsAllIds if outcome.answer == 0 && requests::repeats_id(image) => {
                outcome = Outcome { answer: 11, block: REQUEST_BLOCK as u32, ..Outcome::default() };
            }
            Fault::CountsDeadId if outcome.answer == 0 && published::repeats_dead_id(image) => {
                outcome = Outcome { answer: 11, block: REQUEST_BLOCK as u32, ..Outcome::default() };
            }
            Fault::RestoresVersion1 | Fault::SkipsBytes20 if outcome.answer == 11 && outcome.block == 0 => {
                self.take_block0(image, &mut outcome);
            }
            _ if outcome.block as usize == REQUEST_BLOCK => self.wrong_refusal(image, &mut outcome),
            _ if image.len() == IMAGE_SIZE => self.wrong_index(image, &mut outcome),
            _ => {}
        }
        outcome
    }

    pub fn wrong_summary(&self, image: &[u8]) -> Summary {
        let mut summary = Model.summarize(image);
        match self.0 {
            Fault::CountsHeldAsPended => summary.pended = summary.held,
            Fault::CountsNoRequests if summary.answer == 0 => {
                let requests = Stored::read(image).labels.iter().filter(|word| **word == REQUEST).count();
                summary.labels -= requests as u32;
            }
            Fault::NamesNoBlock => summary.block = 0,
            _ => {}
        }
        summary
    }

    pub fn wrong_words(&self, image: &[u8], words: &mut [u32]) -> Words {
        let room = words.len();
        let mut result = Model.labels(image, words);
        match self.0 {
            Fault::CountsWhenRefused if result.answer != 0 && image.len() == IMAGE_SIZE => result.count = used(image),
            Fault::FillsShortWords if result.answer == 9 && room > 0 => words[0] = u32_at(image, word_at(0)),
            Fault::WritesPastWords if result.answer == 0 && room > PLACES => words[PLACES] = 0,
            Fault::AsksRoomFirst if room < PLACES => result = Words { answer: 9, block: 0, count: 0 },
            _ => {}
        }
        result
    }

    pub fn wrong_part(&self, image: &[u8], place: u32) -> Part {
        let mut part = Model.held(image, place);
        match self.0 {
            Fault::CountsFromFirstSlot if part.answer == 0 => {
                let length = part.end - part.start;
                let start = BLOCK_SIZE as u32 * (1 + place) + 8;
                part = Part { answer: 0, start, end: start + length };
            }
            Fault::ShowsDeadSlot if part.answer == 8 && (place as usize) < SLOTS => {
                let start = (BLOCK_SIZE * Stored::read(image).block_of(place as usize) + 8) as u32;
                part = Part { answer: 0, start, end: start };
            }
            Fault::ShowsWholeSlot if part.answer == 0 => part.start -= 8,
            _ => {}
        }
        part
    }
}
