//! Cabinets with one fault planted in each: the tests must find every one of them.

mod convert;
mod faults;
mod index;
mod left_out;
mod published;
mod reading;
mod requests;

pub use faults::{Fault, ALL};

use cabinet::{
    phase, Cabinet, Converted, Distance, Extended, Message, Next, Opening, Outcome, Part, Pdu, Prefix, Request,
    Session, Summary, Words, REQUEST_BLOCK,
};
use model::Model;
use trials::stored::{seal, steps_after, u32_at, word, Stored, Version, PLACES};
use trials::wire;

/// The model with a fault.
pub struct Planted(pub Fault);

/// Rewrites bytes of block 0 and seals it.
fn put(image: &mut [u8], at: usize, bytes: &[u8]) {
    image[at..at + bytes.len()].copy_from_slice(bytes);
    seal(image, 0);
}

/// A message with another TLV in place of one of its own.
fn replaced(msg: &[u8], tlv: &[u8], tlv_type: u16, value: &[u8]) -> Vec<u8> {
    let at = tlv.as_ptr() as usize - msg.as_ptr() as usize;
    let length = (value.len() as u16).to_be_bytes();
    let mut new = [&msg[..at], &tlv_type.to_be_bytes(), &length, value, &msg[at + tlv.len()..]].concat();
    let whole = (new.len() - 4) as u16;
    new[2..4].copy_from_slice(&whole.to_be_bytes());
    new
}

/// Where a label word stands in block 0.
fn word_at(place: usize) -> usize {
    Version::Two.words_at() + 4 * place
}

/// Moves a word that a call added from the first free place to the last.
fn move_added_word(before: &[u8], image: &mut [u8]) {
    let free = |image: &[u8], place: usize| u32_at(image, word_at(place)) == 0;
    let added = (0..PLACES).find(|place| free(before, *place) && !free(image, *place));
    let last = (0..PLACES).rev().find(|place| free(image, *place));
    if let (Some(added), Some(last)) = (added, last) {
        let word = u32_at(image, word_at(added));
        put(image, word_at(added), &[0; 4]);
        put(image, word_at(last), &word.to_be_bytes());
    }
}

impl Planted {
    /// What submit does wrong after it accepted a message.
    fn after_submission(&self, before: &[u8], image: &mut [u8], given: Session, outcome: &mut Outcome) {
        let stored = Stored::read(image);
        let slot = outcome.slot as usize * 512;
        match self.0 {
            Fault::FreesOnWithdraw if image[slot + 2] == 2 => {
                let withdrawn = word(u32_at(image, slot + 4), 2);
                if let Some(place) = stored.labels.iter().position(|word| *word == withdrawn) {
                    put(image, word_at(place), &[0; 4]);
                }
            }
            Fault::NumbersAtQueueing => {
                let issued = steps_after(stored.released, stored.queue.len() as u64);
                put(image, 8, &issued.to_be_bytes());
            }
            Fault::RefusesAt63 if stored.queue.len() == 64 => {
                image.copy_from_slice(before);
                *outcome = Outcome { answer: 7, session: given, ..Outcome::default() };
            }
            Fault::OverwritesLiveSlot => {
                let oldest = stored.block_of(0) * 512;
                image.copy_within(slot..slot + 512, oldest);
                outcome.slot = stored.block_of(0) as u32;
            }
            Fault::HidesSlot => outcome.slot = 0,
            Fault::KeepsValue => outcome.session.value = given.value,
            _ => {}
        }
    }

    /// What restore and connection failed do wrong.
    fn after_break(&self, before: &[u8], image: &mut [u8], outcome: &mut Outcome) {
        if self.0 == Fault::KeepsUnprotected && outcome.block0 == 1 {
            image.copy_from_slice(before);
            outcome.block0 = 0;
        }
        if outcome.session.phase == phase::FAILED && outcome.answer == 0 {
            self.wrong_break(before, image, outcome);
        }
    }

    fn acknowledged_as_all(&self, image: &[u8], msg: &[u8]) -> Vec<u8> {
        let mut msg = msg.to_vec();
        let zero_ack = [5, 4, 0, 4, 0, 0, 0, 0];
        if let (Some(at), Some(issued)) = (msg.windows(8).position(|tlv| tlv == zero_ack), image.get(8..12)) {
            msg[at + 4..at + 8].copy_from_slice(issued);
        }
        msg
    }
}

impl Cabinet for Planted {
    fn format(&self, image: &mut [u8]) -> Outcome {
        Model.format(image)
    }

    fn restore(&self, image: &mut [u8]) -> Outcome {
        let before = image.to_vec();
        let mut outcome = self.wrong_judgement(image);
        self.after_break(&before, image, &mut outcome);
        outcome
    }

    fn open(&self, image: &[u8], session: Session, opening: &Opening, out: &mut [u8]) -> Outcome {
        let unknown = self.0 == Fault::TakesUnknownPhase && session.phase > phase::FAILED;
        let session = if unknown { Session::default() } else { session };
        let opening = self.wrong_opening(opening);
        let mut outcome = Model.open(image, session, &opening, out);
        match self.0 {
            Fault::WritesWhenRefused if outcome.answer == 9 && !out.is_empty() => out[0] = 2,
            Fault::LacksS if outcome.answer == 0 && opening.published => out[31] = 0,
            Fault::BearsSeconds if outcome.answer == 0 => outcome.session.value /= 1_000,
            _ => {}
        }
        outcome
    }

    fn init_received(&self, image: &mut [u8], session: Session, msg: &[u8]) -> Outcome {
        let before = image.to_vec();
        if self.0 == Fault::RefusesLongWait && session.value > 65_535 && session.phase == phase::INIT_WAIT {
            return Outcome { answer: 1, session, ..Outcome::default() };
        }
        let mut outcome = Model.init_received(image, session, &self.session_read_wrongly(msg));
        let resumed = outcome.session.phase == phase::UP_FT && before[22] == 1;
        outcome.session = self.wrong_flags(session, outcome.session);
        match self.0 {
            Fault::CountSurvivesBreak if resumed => {
                let stored = Stored::read(image);
                let numbered = Model.distance(stored.released.max(1), stored.issued.max(1)).steps;
                outcome.session.value = numbered as u32;
            }
            _ if outcome.session.phase == phase::UP_FT => {
                self.wrong_agreement(&before, image, session, msg);
                outcome.block0 = u32::from(image[..512] != before[..512]);
            }
            _ => {}
        }
        outcome
    }

    fn connection_failed(&self, image: &mut [u8], session: Session) -> Outcome {
        let before = image.to_vec();
        let mut outcome = Model.connection_failed(image, session);
        self.after_break(&before, image, &mut outcome);
        outcome
    }

    fn time_passed(&self, image: &mut [u8], session: Session, elapsed: u32) -> Outcome {
        let seconds = self.0 == Fault::CountsElapsedInSeconds;
        let elapsed = if seconds { elapsed.saturating_mul(1_000) } else { elapsed };
        let mut outcome = Model.time_passed(image, session, elapsed);
        if self.0 == Fault::ZeroTimeoutIsNoWait && outcome.answer == 0 && image[28..32] == [0; 4] {
            image[..512].copy_from_slice(&Stored::idle().image(0)[..512]);
            outcome = Outcome { block0: 1, ..Outcome::default() };
        }
        outcome
    }

    fn submit(&self, image: &mut [u8], session: Session, msg: &[u8]) -> Outcome {
        let before = image.to_vec();
        let mut outcome = self.submit_other_entry(image, session, msg);
        if outcome.answer == 0 {
            self.after_submission(&before, image, session, &mut outcome);
            self.wrong_entry(&before, image, msg, &mut outcome);
        }
        self.wrong_submission(&before, image, session, msg, &mut outcome);
        outcome
    }

    fn send_next(&self, image: &mut [u8], session: Session, ack: bool, out: &mut [u8]) -> Outcome {
        let outcome = self.wrong_send(image, session, ack, out);
        let length = outcome.length as usize;
        match self.0 {
            Fault::WritesPastOutput if outcome.answer == 0 && length < out.len() => out[length] = 0,
            Fault::WrapsToZero if outcome.block0 == 1 && u32_at(image, 8) == 1 && u32_at(image, 4) != 0 => {
                put(image, 8, &[0; 4]);
                let number = length - if ack { 12 } else { 4 };
                out[number..number + 4].fill(0);
            }
            _ => {}
        }
        outcome
    }

    fn keepalive(&self, image: &[u8], session: Session, message_id: u32, out: &mut [u8]) -> Outcome {
        let mut outcome = Model.keepalive(image, session, message_id, out);
        match self.0 {
            Fault::AckAhead if outcome.length == 16 => {
                let ahead = steps_after(u32_at(out, 12), 1);
                out[12..16].copy_from_slice(&ahead.to_be_bytes());
            }
            Fault::NamesBlock0InVain if outcome.answer == 0 => outcome.block0 = 1,
            _ => {}
        }
        outcome
    }

    fn receive(&self, image: &mut [u8], session: Session, msg: &[u8]) -> Outcome {
        let before = image.to_vec();
        let all = self.acknowledged_as_all(image, msg);
        let msg = if self.0 == Fault::ZeroAckIsAll { &all } else { msg };
        let read = self.fec_read_wrongly(image, &self.read_wrongly(msg));
        let after_ack = self.receive_after_ack(image, session, msg);
        let mut outcome = after_ack.unwrap_or_else(|| self.wrong_turn(image, session, &read));
        let accepted = outcome.answer == 0 && session.phase == phase::UP_FT;
        if accepted {
            self.wrong_reception(&before, image, &mut outcome);
            self.wrong_entry(&before, image, msg, &mut outcome);
        }
        match self.0 {
            Fault::HidesBlock0 if accepted => outcome.block0 = 0,
            Fault::SecuredStays if accepted => {
                put(image, 12, &before[12..16]);
                outcome.block0 = u32::from(image[..512] != before[..512]);
            }
            Fault::TakesLastFreeWord if accepted && wire::protection_number(msg).is_some() => {
                move_added_word(&before, image);
            }
            _ => {}
        }
        outcome
    }

    fn pdu_open(&self, pdu: &[u8]) -> Pdu {
        Model.pdu_open(pdu)
    }

    fn pdu_message(&self, pdu: &[u8], at: usize) -> Part {
        Model.pdu_message(pdu, at)
    }

    fn message_read(&self, msg: &[u8]) -> Message {
        Model.message_read(&self.session_read_wrongly(msg))
    }

    fn distance(&self, from: u32, to: u32) -> Distance {
        let mut distance = Model.distance(from, to);
        if self.0 == Fault::LongWayRound && distance.steps == -2_147_483_647 {
            distance.steps = i32::MIN;
        }
        distance
    }

    fn successor(&self, number: u32) -> u32 {
        if self.0 == Fault::WrapsToZero {
            number.wrapping_add(1)
        } else {
            Model.successor(number)
        }
    }

    fn next_number(&self, secured: u32, number: u32, resumed: bool) -> Next {
        self.wrong_next(secured, number, resumed)
    }

    fn lesser_timeout(&self, a: u32, b: u32) -> u32 {
        if self.0 == Fault::LesserOfZeroIsZero {
            a.min(b)
        } else {
            Model.lesser_timeout(a, b)
        }
    }

    fn block_check(&self, block: &[u8]) -> u32 {
        Model.block_check(block)
    }

    fn label(&self, image: &[u8], place: u32) -> u32 {
        let one_more = self.0 == Fault::ShowsWord119 && place == 119 && Model.label(image, 0) != u32::MAX;
        if one_more {
            0
        } else {
            Model.label(image, place)
        }
    }

    fn request_at(&self, image: &[u8], place: u32) -> Request {
        let mut request = Model.request_at(image, place);
        if self.0 == Fault::ShowsClosedRequest && Model.label(image, place) != u32::MAX {
            request.id = u32_at(image, REQUEST_BLOCK * 512 + 4 * place as usize);
        }
        request
    }

    fn prefix_at(&self, image: &[u8], place: u32) -> Prefix {
        self.wrong_prefix(image, place)
    }

    fn summarize(&self, image: &[u8]) -> Summary {
        self.wrong_summary(image)
    }

    fn labels(&self, image: &[u8], words: &mut [u32]) -> Words {
        self.wrong_words(image, words)
    }

    fn held(&self, image: &[u8], place: u32) -> Part {
        self.wrong_part(image, place)
    }

    fn extend(&self, image: &mut [u8], stored_len: usize) -> Extended {
        self.wrong_extension(image, stored_len)
    }

    fn convert_forward(&self, image: &[u8], out: &mut [u8]) -> Converted {
        self.wrong_move(Version::One, image, out)
    }

    fn convert_back(&self, image: &[u8], out: &mut [u8]) -> Converted {
        self.wrong_move(Version::Two, image, out)
    }
}
