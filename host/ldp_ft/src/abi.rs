//! The C boundary of the session library, declared once: the names, types and field order of include/ldp_ft.h.

#![allow(non_camel_case_types)]

/// The phase, its value and its flags.
#[repr(C)]
#[derive(Clone, Copy)]
pub struct ldp_ft_session {
    pub phase: u32,
    pub value: u32,
    pub flags: u32,
}

/// What a call on an image did, and what to store.
#[repr(C)]
pub struct ldp_ft_outcome {
    pub answer: u32,
    pub block: u32,
    pub session: ldp_ft_session,
    pub length: u32,
    pub slot: u32,
    pub block0: u32,
    pub further: u32,
    pub left_out: u32,
}

/// A whole PDU judged.
#[repr(C)]
pub struct ldp_ft_pdu {
    pub answer: u32,
    pub count: u32,
}

/// One message as a part of its PDU, or of the image that holds it.
#[repr(C)]
pub struct ldp_ft_part {
    pub answer: u32,
    pub start: u32,
    pub end: u32,
}

/// A message read.
#[repr(C)]
pub struct ldp_ft_message {
    pub answer: u32,
    pub r#type: u32,
    pub message_id: u32,
    pub kind: u32,
    pub has: u32,
    pub fec_start: u32,
    pub fec_end: u32,
    pub label: u32,
    pub status: u32,
    pub number: u32,
    pub ack: u32,
    pub reconnect: u32,
    pub timeout: u32,
    pub keepalive_time: u32,
    pub max_pdu_length: u32,
    pub request_id: u32,
    pub status_id: u32,
    pub published: u32,
}

/// The Request that a label word stands for.
#[repr(C)]
pub struct ldp_ft_request {
    pub open: u32,
    pub id: u32,
}

/// The prefix of the label that a word lists.
#[repr(C)]
pub struct ldp_ft_prefix {
    pub indexed: u32,
    pub length: u32,
    pub prefix: u32,
}

/// An image of an earlier size made one of this size.
#[repr(C)]
pub struct ldp_ft_extended {
    pub answer: u32,
    pub further: u32,
}

/// An image moved to another version.
#[repr(C)]
pub struct ldp_ft_converted {
    pub answer: u32,
    pub block: u32,
    pub length: u32,
}

/// What an image holds, in numbers.
#[repr(C)]
pub struct ldp_ft_summary {
    pub answer: u32,
    pub block: u32,
    pub kept: u32,
    pub released: u32,
    pub issued: u32,
    pub secured: u32,
    pub held: u32,
    pub pended: u32,
    pub labels: u32,
    pub timeout: u32,
    pub keepalive_time: u32,
    pub max_pdu_length: u32,
    pub marks: u32,
}

/// All label words written.
#[repr(C)]
pub struct ldp_ft_words {
    pub answer: u32,
    pub block: u32,
    pub count: u32,
}

/// Whether a number may come next, and how many were left out before it.
#[repr(C)]
pub struct ldp_ft_next {
    pub answer: u32,
    pub left_out: u32,
}

/// The signed distance of two FT numbers.
#[repr(C)]
pub struct ldp_ft_distance_result {
    pub answer: u32,
    pub steps: i32,
}

extern "C" {
    pub fn ldp_ft_version() -> u32;
    pub fn ldp_ft_format(image: *mut u8, image_len: usize) -> ldp_ft_outcome;
    pub fn ldp_ft_restore(image: *mut u8, image_len: usize) -> ldp_ft_outcome;
    pub fn ldp_ft_open(
        image: *const u8,
        image_len: usize,
        s: ldp_ft_session,
        message_id: u32,
        keepalive_time: u16,
        max_pdu_length: u16,
        receiver_lsr: u32,
        receiver_space: u16,
        proposal_given: bool,
        proposal: u32,
        on_demand: bool,
        published: bool,
        out: *mut u8,
        out_len: usize,
    ) -> ldp_ft_outcome;
    pub fn ldp_ft_init_received(
        image: *mut u8,
        image_len: usize,
        s: ldp_ft_session,
        msg: *const u8,
        msg_len: usize,
    ) -> ldp_ft_outcome;
    pub fn ldp_ft_connection_failed(image: *mut u8, image_len: usize, s: ldp_ft_session) -> ldp_ft_outcome;
    pub fn ldp_ft_time_passed(image: *mut u8, image_len: usize, s: ldp_ft_session, elapsed: u32) -> ldp_ft_outcome;
    pub fn ldp_ft_submit(
        image: *mut u8,
        image_len: usize,
        s: ldp_ft_session,
        msg: *const u8,
        msg_len: usize,
    ) -> ldp_ft_outcome;
    pub fn ldp_ft_send_next(
        image: *mut u8,
        image_len: usize,
        s: ldp_ft_session,
        ack: bool,
        out: *mut u8,
        out_len: usize,
    ) -> ldp_ft_outcome;
    pub fn ldp_ft_keepalive(
        image: *const u8,
        image_len: usize,
        s: ldp_ft_session,
        message_id: u32,
        out: *mut u8,
        out_len: usize,
    ) -> ldp_ft_outcome;
    pub fn ldp_ft_receive(
        image: *mut u8,
        image_len: usize,
        s: ldp_ft_session,
        msg: *const u8,
        msg_len: usize,
    ) -> ldp_ft_outcome;
    pub fn ldp_ft_pdu_open(pdu: *const u8, pdu_len: usize) -> ldp_ft_pdu;
    pub fn ldp_ft_pdu_message(pdu: *const u8, pdu_len: usize, at: usize) -> ldp_ft_part;
    pub fn ldp_ft_message_read(msg: *const u8, msg_len: usize) -> ldp_ft_message;
    pub fn ldp_ft_distance(from: u32, to: u32) -> ldp_ft_distance_result;
    pub fn ldp_ft_successor(number: u32) -> u32;
    pub fn ldp_ft_next_number(secured: u32, number: u32, resumed: bool) -> ldp_ft_next;
    pub fn ldp_ft_lesser_timeout(a: u32, b: u32) -> u32;
    pub fn ldp_ft_block_check(block: *const u8, block_len: usize) -> u32;
    pub fn ldp_ft_label(image: *const u8, image_len: usize, place: u32) -> u32;
    pub fn ldp_ft_request_at(image: *const u8, image_len: usize, place: u32) -> ldp_ft_request;
    pub fn ldp_ft_prefix_at(image: *const u8, image_len: usize, place: u32) -> ldp_ft_prefix;
    pub fn ldp_ft_summarize(image: *const u8, image_len: usize) -> ldp_ft_summary;
    pub fn ldp_ft_labels(image: *const u8, image_len: usize, words: *mut u32, words_len: usize) -> ldp_ft_words;
    pub fn ldp_ft_held(image: *const u8, image_len: usize, place: u32) -> ldp_ft_part;
    pub fn ldp_ft_extend(image: *mut u8, image_len: usize, stored_len: usize) -> ldp_ft_extended;
    pub fn ldp_ft_convert_forward(image: *const u8, image_len: usize, out: *mut u8, out_len: usize)
        -> ldp_ft_converted;
    pub fn ldp_ft_convert_back(image: *const u8, image_len: usize, out: *mut u8, out_len: usize) -> ldp_ft_converted;
}
