//! What the faults about messages left out do wrong.

use super::{put, Fault, Planted};
use cabinet::{flags, phase, Cabinet, Next, Outcome, Session};
use model::Model;
use trials::stored::{steps_after, steps_between, u32_at, Queued, Stored};
use trials::wire::{message_id, protection_number, request_id};

const ROOM: usize = 500;

/// Send next where so many of the held have a number, whatever the image says; numbers that were given stay given.
fn send_with(image: &mut [u8], numbered: usize, session: Session, ack: bool, out: &mut [u8]) -> Outcome {
    let before = image.to_vec();
    let stored = Stored::read(image);
    put(image, 8, &steps_after(stored.released, numbered as u64).to_be_bytes());
    let mut outcome = Model.send_next(image, session, ack, out);
    let issued = Stored::read(image).numbered().max(stored.numbered());
    put(image, 8, &steps_after(stored.released, issued as u64).to_be_bytes());
    outcome.block0 = u32::from(image[..512] != before[..512]);
    outcome
}

impl Planted {
    /// True where a message is left out by this fault's own rule.
    fn leaves_out(&self, stored: &Stored, place: usize) -> bool {
        let Some((first, behind)) = stored.queue[place..].split_first() else { return false };
        let is_abort = |other: &&Queued| other.kind == 8;
        let names = |other: &Queued| request_id(&other.bytes) == Some(message_id(&first.bytes));
        let is_numbered = place < stored.numbered();
        let undone = match self.0 {
            Fault::LeavesOutPended => behind.iter().filter(is_abort).any(names),
            Fault::LeavesOutByEarlierAbort => is_numbered && stored.queue.iter().filter(is_abort).any(names),
            Fault::LeavesOutByAnyAbort => is_numbered && behind.iter().any(|other| is_abort(&other)),
            _ => false,
        };
        first.kind == 7 && undone
    }

    /// Send next, done wrongly where it would be done.
    pub fn wrong_send(&self, image: &mut [u8], session: Session, ack: bool, out: &mut [u8]) -> Outcome {
        let right = Model.send_next(&mut image.to_vec(), session, ack, &mut vec![0; ROOM]);
        if right.answer != 0 {
            return Model.send_next(image, session, ack, out);
        }
        let (stored, sent) = (Stored::read(image), session.value as usize);
        let skipped = (sent..stored.queue.len()).take_while(|place| self.leaves_out(&stored, *place)).count();
        match self.0 {
            Fault::LeavesOutNone => send_with(image, sent, session, ack, out),
            Fault::LeavesOutWhereResumed if !session.is_resumed() => send_with(image, sent, session, ack, out),
            Fault::LeavesOutOneOnly if right.left_out > 1 => send_with(image, sent + 1, session, ack, out),
            _ if skipped > right.left_out as usize => {
                let place = sent + skipped;
                let further = Session { value: place as u32, ..session };
                let outcome = send_with(image, place.max(stored.numbered()), further, ack, out);
                let done = outcome.answer == 0;
                let left_out = if done { outcome.left_out + skipped as u32 } else { 0 };
                Outcome { left_out, session: if done { outcome.session } else { session }, ..outcome }
            }
            _ => self.tell_wrongly(right.left_out, session, Model.send_next(image, session, ack, out)),
        }
    }

    /// What Send next says of those left out, whether or not there was room.
    fn tell_wrongly(&self, left_out: u32, given: Session, mut outcome: Outcome) -> Outcome {
        match self.0 {
            Fault::CountsPassedOverUnsent if outcome.answer == 0 => outcome.session.value = given.value + 1,
            Fault::HidesLeftOut => outcome.left_out = 0,
            Fault::PassesOverWhenRefused if outcome.answer == 9 => outcome.session.value += left_out,
            _ => {}
        }
        outcome
    }

    /// Receive, where the number is judged wrongly.
    pub fn wrong_turn(&self, image: &mut [u8], session: Session, msg: &[u8]) -> Outcome {
        let before = image.to_vec();
        let number = protection_number(msg);
        let outcome = match self.0 {
            Fault::JumpsUnresumed => Model.receive(image, Session { flags: flags::RESUMED, ..session }, msg),
            _ => Model.receive(image, session, msg),
        };
        match (self.0, number) {
            (Fault::TakesJumpOf65, Some(number)) if outcome.answer == 20 && session.is_resumed() => {
                let secured = u32_at(&before, 12);
                if steps_between(secured, number) != 65 {
                    return outcome;
                }
                image.copy_from_slice(&before);
                put(image, 12, &steps_after(secured, 1).to_be_bytes());
                Outcome { left_out: 64, ..Model.receive(image, session, msg) }
            }
            (Fault::SecuresByOne, Some(_)) if outcome.left_out > 0 => {
                put(image, 12, &steps_after(u32_at(&before, 12), 1).to_be_bytes());
                outcome
            }
            _ => Outcome { session: self.wrong_flags(session, outcome.session), ..outcome },
        }
    }

    /// The session after a call that was given one.
    pub fn wrong_flags(&self, given: Session, after: Session) -> Session {
        let up = after.phase == phase::UP_FT;
        match self.0 {
            Fault::JumpsUnresumed if up => Session { flags: given.flags & flags::RESUMED, ..after },
            Fault::ForgetsResumed if up && given.phase == phase::INIT_WAIT => Session { flags: 0, ..after },
            Fault::KeepsFlags => Session { flags: given.flags, ..after },
            _ => after,
        }
    }

    pub fn wrong_next(&self, secured: u32, number: u32, resumed: bool) -> Next {
        let always = self.0 == Fault::NextIsAlwaysResumed;
        let mut next = Model.next_number(secured, number, resumed || always);
        if self.0 == Fault::NextZeroIsOutOfTurn && next.answer == 30 {
            next.answer = 20;
        }
        next
    }
}
