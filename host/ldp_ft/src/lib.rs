//! The proved session library as safe Rust: slices for pointers and lengths, plain structs for results.

pub mod abi;
mod convert;

use abi::*;
use cabinet::{
    Cabinet, Converted, Distance, Extended, Message, Next, Opening, Outcome, Part, Pdu, Prefix, Request, Session,
    Summary, Words,
};
use core::ptr::{null, null_mut};

/// The library. Every function of the boundary takes every input, keeps nothing and touches only the slices it is
/// lent, so each call below is sound for every argument: a Rust slice is a valid pointer with its length, and a null
/// pointer with length 0 is an empty slice.
#[derive(Clone, Copy, Debug, Default)]
pub struct Library;

/// Where a slice starts; null for an empty one, as C has it.
fn start<T>(slice: &[T]) -> *const T {
    if slice.is_empty() {
        null()
    } else {
        slice.as_ptr()
    }
}

/// Where a slice to be written starts.
fn start_mut<T>(slice: &mut [T]) -> *mut T {
    if slice.is_empty() {
        null_mut()
    } else {
        slice.as_mut_ptr()
    }
}

impl Library {
    /// The version of the library that runs: major * 65,536 + minor * 256 + patch.
    pub fn version(&self) -> u32 {
        // SAFETY: a number only.
        unsafe { ldp_ft_version() }
    }
}

impl Cabinet for Library {
    fn format(&self, image: &mut [u8]) -> Outcome {
        // SAFETY: the image is a whole slice, lent for the call.
        unsafe { ldp_ft_format(start_mut(image), image.len()) }.into()
    }

    fn restore(&self, image: &mut [u8]) -> Outcome {
        // SAFETY: as for `format`.
        unsafe { ldp_ft_restore(start_mut(image), image.len()) }.into()
    }

    fn open(&self, image: &[u8], session: Session, opening: &Opening, out: &mut [u8]) -> Outcome {
        // SAFETY: two whole slices that do not overlap, lent for the call; the image is only read.
        unsafe {
            ldp_ft_open(
                start(image),
                image.len(),
                session.into(),
                opening.message_id,
                opening.keepalive_time,
                opening.max_pdu_length,
                opening.receiver_lsr,
                opening.receiver_space,
                opening.proposal.is_some(),
                opening.proposal.unwrap_or(0),
                opening.on_demand,
                opening.published,
                start_mut(out),
                out.len(),
            )
        }
        .into()
    }

    fn init_received(&self, image: &mut [u8], session: Session, msg: &[u8]) -> Outcome {
        // SAFETY: as for `open`; the message is only read.
        unsafe { ldp_ft_init_received(start_mut(image), image.len(), session.into(), start(msg), msg.len()) }.into()
    }

    fn connection_failed(&self, image: &mut [u8], session: Session) -> Outcome {
        // SAFETY: as for `format`.
        unsafe { ldp_ft_connection_failed(start_mut(image), image.len(), session.into()) }.into()
    }

    fn time_passed(&self, image: &mut [u8], session: Session, elapsed: u32) -> Outcome {
        // SAFETY: as for `format`.
        unsafe { ldp_ft_time_passed(start_mut(image), image.len(), session.into(), elapsed) }.into()
    }

    fn submit(&self, image: &mut [u8], session: Session, msg: &[u8]) -> Outcome {
        // SAFETY: as for `open`; the message is only read.
        unsafe { ldp_ft_submit(start_mut(image), image.len(), session.into(), start(msg), msg.len()) }.into()
    }

    fn send_next(&self, image: &mut [u8], session: Session, ack: bool, out: &mut [u8]) -> Outcome {
        // SAFETY: as for `open`.
        unsafe { ldp_ft_send_next(start_mut(image), image.len(), session.into(), ack, start_mut(out), out.len()) }
            .into()
    }

    fn keepalive(&self, image: &[u8], session: Session, message_id: u32, out: &mut [u8]) -> Outcome {
        // SAFETY: as for `open`.
        unsafe { ldp_ft_keepalive(start(image), image.len(), session.into(), message_id, start_mut(out), out.len()) }
            .into()
    }

    fn receive(&self, image: &mut [u8], session: Session, msg: &[u8]) -> Outcome {
        // SAFETY: as for `open`; the message is only read.
        unsafe { ldp_ft_receive(start_mut(image), image.len(), session.into(), start(msg), msg.len()) }.into()
    }

    fn pdu_open(&self, pdu: &[u8]) -> Pdu {
        // SAFETY: a whole slice, only read.
        unsafe { ldp_ft_pdu_open(start(pdu), pdu.len()) }.into()
    }

    fn pdu_message(&self, pdu: &[u8], at: usize) -> Part {
        // SAFETY: as for `pdu_open`; `at` may be any number.
        unsafe { ldp_ft_pdu_message(start(pdu), pdu.len(), at) }.into()
    }

    fn message_read(&self, msg: &[u8]) -> Message {
        // SAFETY: as for `pdu_open`.
        unsafe { ldp_ft_message_read(start(msg), msg.len()) }.into()
    }

    fn distance(&self, from: u32, to: u32) -> Distance {
        // SAFETY: numbers only.
        unsafe { ldp_ft_distance(from, to) }.into()
    }

    fn successor(&self, number: u32) -> u32 {
        // SAFETY: numbers only.
        unsafe { ldp_ft_successor(number) }
    }

    fn next_number(&self, secured: u32, number: u32, resumed: bool) -> Next {
        // SAFETY: numbers only.
        unsafe { ldp_ft_next_number(secured, number, resumed) }.into()
    }

    fn lesser_timeout(&self, a: u32, b: u32) -> u32 {
        // SAFETY: numbers only.
        unsafe { ldp_ft_lesser_timeout(a, b) }
    }

    fn block_check(&self, block: &[u8]) -> u32 {
        // SAFETY: a whole slice, only read.
        unsafe { ldp_ft_block_check(start(block), block.len()) }
    }

    fn label(&self, image: &[u8], place: u32) -> u32 {
        // SAFETY: a whole slice, only read.
        unsafe { ldp_ft_label(start(image), image.len(), place) }
    }

    fn request_at(&self, image: &[u8], place: u32) -> Request {
        // SAFETY: as for `label`.
        unsafe { ldp_ft_request_at(start(image), image.len(), place) }.into()
    }

    fn prefix_at(&self, image: &[u8], place: u32) -> Prefix {
        // SAFETY: as for `label`.
        unsafe { ldp_ft_prefix_at(start(image), image.len(), place) }.into()
    }

    fn summarize(&self, image: &[u8]) -> Summary {
        // SAFETY: as for `label`.
        unsafe { ldp_ft_summarize(start(image), image.len()) }.into()
    }

    fn labels(&self, image: &[u8], words: &mut [u32]) -> Words {
        // SAFETY: two whole slices that do not overlap, lent for the call; the image is only read.
        unsafe { ldp_ft_labels(start(image), image.len(), start_mut(words), words.len()) }.into()
    }

    fn held(&self, image: &[u8], place: u32) -> Part {
        // SAFETY: as for `label`.
        unsafe { ldp_ft_held(start(image), image.len(), place) }.into()
    }

    fn extend(&self, image: &mut [u8], stored_len: usize) -> Extended {
        // SAFETY: as for `format`; `stored_len` may be any number.
        unsafe { ldp_ft_extend(start_mut(image), image.len(), stored_len) }.into()
    }

    fn convert_forward(&self, image: &[u8], out: &mut [u8]) -> Converted {
        // SAFETY: as for `open`.
        unsafe { ldp_ft_convert_forward(start(image), image.len(), start_mut(out), out.len()) }.into()
    }

    fn convert_back(&self, image: &[u8], out: &mut [u8]) -> Converted {
        // SAFETY: as for `open`.
        unsafe { ldp_ft_convert_back(start(image), image.len(), start_mut(out), out.len()) }.into()
    }
}
