//! The session's rules written a second time, in plain Rust: what the library is compared with, call by call.
//!
//! No heap, no state between calls; block 0 is rewritten on a copy and put back as a whole.

#![no_std]
#![forbid(unsafe_code)]

mod check;
mod convert;
mod draft;
mod image;
mod index;
mod labels;
mod layout;
mod message;
mod number;
mod octets;
mod pdu;
mod reading;
mod receive;
mod requests;
mod send;
mod session;
mod write;

use cabinet::{
    Cabinet, Converted, Distance, Extended, Message, Next, Opening, Outcome, Part, Pdu, Prefix, Request, Session,
    Summary, Words,
};

/// True where the model was compiled with no vector instructions.
pub const WITHOUT_VECTORS: bool = cfg!(without_vectors);

/// The model of the library.
#[derive(Clone, Copy, Debug, Default)]
pub struct Model;

impl Cabinet for Model {
    fn format(&self, image: &mut [u8]) -> Outcome {
        session::format(image)
    }

    fn restore(&self, image: &mut [u8]) -> Outcome {
        session::restore(image)
    }

    fn open(&self, image: &[u8], session: Session, opening: &Opening, out: &mut [u8]) -> Outcome {
        session::open(image, session, opening, out).unwrap_or_else(|refusal| refusal.outcome(session))
    }

    fn init_received(&self, image: &mut [u8], session: Session, msg: &[u8]) -> Outcome {
        session::init_received(image, session, msg).unwrap_or_else(|refusal| refusal.outcome(session))
    }

    fn connection_failed(&self, image: &mut [u8], session: Session) -> Outcome {
        session::connection_failed(image, session).unwrap_or_else(|refusal| refusal.outcome(session))
    }

    fn time_passed(&self, image: &mut [u8], session: Session, elapsed: u32) -> Outcome {
        session::time_passed(image, session, elapsed).unwrap_or_else(|refusal| refusal.outcome(session))
    }

    fn submit(&self, image: &mut [u8], session: Session, msg: &[u8]) -> Outcome {
        session::submit(image, session, msg).unwrap_or_else(|refusal| refusal.outcome(session))
    }

    fn send_next(&self, image: &mut [u8], session: Session, ack: bool, out: &mut [u8]) -> Outcome {
        send::send_next(image, session, ack, out).unwrap_or_else(|refusal| refusal.outcome(session))
    }

    fn keepalive(&self, image: &[u8], session: Session, message_id: u32, out: &mut [u8]) -> Outcome {
        session::keepalive(image, session, message_id, out).unwrap_or_else(|refusal| refusal.outcome(session))
    }

    fn receive(&self, image: &mut [u8], session: Session, msg: &[u8]) -> Outcome {
        receive::receive(image, session, msg).unwrap_or_else(|refusal| refusal.outcome(session))
    }

    fn pdu_open(&self, pdu: &[u8]) -> Pdu {
        pdu::open(pdu)
    }

    fn pdu_message(&self, pdu: &[u8], at: usize) -> Part {
        pdu::message(pdu, at)
    }

    fn message_read(&self, msg: &[u8]) -> Message {
        message::read(msg).unwrap_or(Message { answer: 22, ..Message::default() })
    }

    fn distance(&self, from: u32, to: u32) -> Distance {
        number::distance(from, to)
    }

    fn successor(&self, from: u32) -> u32 {
        number::successor(from)
    }

    fn next_number(&self, secured: u32, number: u32, resumed: bool) -> Next {
        number::next(secured, number, resumed)
    }

    fn lesser_timeout(&self, a: u32, b: u32) -> u32 {
        number::lesser_timeout(a, b)
    }

    fn block_check(&self, block: &[u8]) -> u32 {
        check::block_check(block)
    }

    fn label(&self, image: &[u8], place: u32) -> u32 {
        reading::word_at(image, place).unwrap_or(u32::MAX)
    }

    fn request_at(&self, image: &[u8], place: u32) -> Request {
        reading::request_at(image, place)
    }

    fn prefix_at(&self, image: &[u8], place: u32) -> Prefix {
        reading::prefix_at(image, place)
    }

    fn summarize(&self, image: &[u8]) -> Summary {
        reading::summarize(image)
    }

    fn labels(&self, image: &[u8], words: &mut [u32]) -> Words {
        reading::labels(image, words)
    }

    fn held(&self, image: &[u8], place: u32) -> Part {
        reading::held(image, place)
    }

    fn extend(&self, image: &mut [u8], stored_len: usize) -> Extended {
        session::extend(image, stored_len)
    }

    fn convert_forward(&self, image: &[u8], out: &mut [u8]) -> Converted {
        convert::convert(layout::ONE, layout::TWO, image, out)
    }

    fn convert_back(&self, image: &[u8], out: &mut [u8]) -> Converted {
        convert::convert(layout::TWO, layout::ONE, image, out)
    }
}
