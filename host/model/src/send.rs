//! Send next: the oldest held message not sent on this connection, but for the Requests that their Aborts undo.

use crate::draft::Draft;
use crate::image::{self, Head, Refusal};
use crate::message::{self, kinds};
use crate::octets::be32;
use crate::session::{enter, up};
use crate::{number, write};
use cabinet::{phase, Outcome, Session, SLOTS};

pub fn send_next(image: &mut [u8], session: Session, ack: bool, out: &mut [u8]) -> Result<Outcome, Refusal> {
    let head = enter(image, session, &[phase::UP_FT])?;
    let sent = session.value;
    if sent as usize == head.held {
        return Err(Refusal::of(8));
    }
    let left_out = left_out(image, &head, sent);
    let place = sent + left_out;
    let msg = image::slot_message(image::block(image, head.block_of(place as usize)));
    let length = msg.len() + write::FT_TLV * if ack { 2 } else { 1 };
    let out = out.get_mut(..length).ok_or(Refusal::of(9))?;
    let number = number::advance(head.released, place + 1);
    write::protected(out, msg, number, ack.then_some(head.secured));
    let block0 = if place == head.numbered {
        let mut draft = Draft::of(image);
        draft.set_issued(number);
        draft.store(image)
    } else {
        0
    };
    let session = up(place + 1, session.is_resumed());
    Ok(Outcome { session, length: length as u32, block0, left_out, ..Outcome::default() })
}

/// How many of those with a number are left out from the count sent on, one after another.
fn left_out(image: &[u8], head: &Head, sent: u32) -> u32 {
    let next = image::block(image, head.block_of(sent as usize));
    if sent == head.numbered || image::slot_kind(next) != kinds::REQUEST {
        return 0;
    }
    let ahead = undone(image, head, sent as usize) >> sent;
    ahead.trailing_ones().min(head.numbered - sent)
}

/// The places, from one on, of the Requests that an Abort behind them undoes, a bit each: the newest is looked at
/// first.
fn undone(image: &[u8], head: &Head, from: usize) -> u64 {
    let mut aborted = [0; SLOTS];
    let (mut aborts, mut undone) = (0, 0);
    for place in (from..head.held).rev() {
        let slot = image::block(image, head.block_of(place));
        let msg = image::slot_message(slot);
        match image::slot_kind(slot) {
            kinds::ABORT => {
                aborted[aborts] = message::read(msg).map_or(0, |abort| abort.request_id);
                aborts += 1;
            }
            kinds::REQUEST if aborted[..aborts].contains(&be32(msg, 4)) => undone |= 1 << place,
            _ => {}
        }
    }
    undone
}
