//! A model behind a C boundary like the library's, so that both pay for crossing it.

use cabinet::{
    Cabinet, Converted, Distance, Extended, Message, Next, Opening, Outcome, Part, Pdu, Prefix, Request, Session,
    Summary, Words,
};
use ldp_ft::abi::*;

/// A model whose calls go out as C calls and come back as C structs.
#[derive(Clone, Copy, Default)]
pub struct Exported<M>(M);

/// For each call the C function, never inlined, and the method that makes it. A slice goes as pointer and length.
macro_rules! exported {
    ($($name:ident($($arg:ident: $type:ty),*) -> $c:ty => $rust:ty;)*) => {
        #[allow(improper_ctypes_definitions)]
        mod c {
            use super::*;

            $(#[inline(never)]
            pub extern "C" fn $name<M: Cabinet + Default>($($arg: $type),*) -> $c {
                M::default().$name($($arg),*).into()
            })*
        }

        impl<M: Cabinet + Default> Cabinet for Exported<M> {
            $(fn $name(&self, $($arg: $type),*) -> $rust {
                c::$name::<M>($($arg),*).into()
            })*
        }
    };
}

exported! {
    format(image: &mut [u8]) -> ldp_ft_outcome => Outcome;
    restore(image: &mut [u8]) -> ldp_ft_outcome => Outcome;
    open(image: &[u8], session: Session, opening: &Opening, out: &mut [u8]) -> ldp_ft_outcome => Outcome;
    init_received(image: &mut [u8], session: Session, msg: &[u8]) -> ldp_ft_outcome => Outcome;
    connection_failed(image: &mut [u8], session: Session) -> ldp_ft_outcome => Outcome;
    time_passed(image: &mut [u8], session: Session, elapsed: u32) -> ldp_ft_outcome => Outcome;
    submit(image: &mut [u8], session: Session, msg: &[u8]) -> ldp_ft_outcome => Outcome;
    send_next(image: &mut [u8], session: Session, ack: bool, out: &mut [u8]) -> ldp_ft_outcome => Outcome;
    keepalive(image: &[u8], session: Session, message_id: u32, out: &mut [u8]) -> ldp_ft_outcome => Outcome;
    receive(image: &mut [u8], session: Session, msg: &[u8]) -> ldp_ft_outcome => Outcome;
    pdu_open(pdu: &[u8]) -> ldp_ft_pdu => Pdu;
    pdu_message(pdu: &[u8], at: usize) -> ldp_ft_part => Part;
    message_read(msg: &[u8]) -> ldp_ft_message => Message;
    distance(from: u32, to: u32) -> ldp_ft_distance_result => Distance;
    successor(number: u32) -> u32 => u32;
    next_number(secured: u32, number: u32, resumed: bool) -> ldp_ft_next => Next;
    lesser_timeout(a: u32, b: u32) -> u32 => u32;
    block_check(block: &[u8]) -> u32 => u32;
    label(image: &[u8], place: u32) -> u32 => u32;
    request_at(image: &[u8], place: u32) -> ldp_ft_request => Request;
    prefix_at(image: &[u8], place: u32) -> ldp_ft_prefix => Prefix;
    summarize(image: &[u8]) -> ldp_ft_summary => Summary;
    labels(image: &[u8], words: &mut [u32]) -> ldp_ft_words => Words;
    held(image: &[u8], place: u32) -> ldp_ft_part => Part;
    extend(image: &mut [u8], stored_len: usize) -> ldp_ft_extended => Extended;
    convert_forward(image: &[u8], out: &mut [u8]) -> ldp_ft_converted => Converted;
    convert_back(image: &[u8], out: &mut [u8]) -> ldp_ft_converted => Converted;
}
