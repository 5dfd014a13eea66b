//! Results as C has them and as Rust has them, both ways, field by field.

use crate::abi::*;
use cabinet::{
    Converted, Distance, Extended, Message, Next, Outcome, Part, Pdu, Prefix, Request, Session, Summary, Words,
};

/// Conversions between two structs with the same fields.
macro_rules! same_fields {
    ($rust:ident, $c:ident: $($field:ident),+) => {
        impl From<$c> for $rust {
            fn from(c: $c) -> Self {
                $rust { $($field: c.$field),+ }
            }
        }

        impl From<$rust> for $c {
            fn from(rust: $rust) -> Self {
                $c { $($field: rust.$field),+ }
            }
        }
    };
}

same_fields!(Session, ldp_ft_session: phase, value, flags);
same_fields!(Pdu, ldp_ft_pdu: answer, count);
same_fields!(Part, ldp_ft_part: answer, start, end);
same_fields!(Next, ldp_ft_next: answer, left_out);
same_fields!(Distance, ldp_ft_distance_result: answer, steps);
same_fields!(Request, ldp_ft_request: open, id);
same_fields!(Prefix, ldp_ft_prefix: indexed, length, prefix);
same_fields!(Extended, ldp_ft_extended: answer, further);
same_fields!(Converted, ldp_ft_converted: answer, block, length);
same_fields!(Words, ldp_ft_words: answer, block, count);
same_fields!(
    Summary, ldp_ft_summary:
    answer, block, kept, released, issued, secured, held, pended, labels, timeout, keepalive_time, max_pdu_length,
    marks
);

impl From<ldp_ft_outcome> for Outcome {
    fn from(c: ldp_ft_outcome) -> Self {
        Outcome {
            answer: c.answer,
            block: c.block,
            session: c.session.into(),
            length: c.length,
            slot: c.slot,
            block0: c.block0,
            further: c.further,
            left_out: c.left_out,
        }
    }
}

impl From<Outcome> for ldp_ft_outcome {
    fn from(rust: Outcome) -> Self {
        ldp_ft_outcome {
            answer: rust.answer,
            block: rust.block,
            session: rust.session.into(),
            length: rust.length,
            slot: rust.slot,
            block0: rust.block0,
            further: rust.further,
            left_out: rust.left_out,
        }
    }
}

impl From<ldp_ft_message> for Message {
    fn from(c: ldp_ft_message) -> Self {
        Message {
            answer: c.answer,
            message_type: c.r#type,
            message_id: c.message_id,
            kind: c.kind,
            has: c.has,
            fec_start: c.fec_start,
            fec_end: c.fec_end,
            label: c.label,
            status: c.status,
            number: c.number,
            ack: c.ack,
            reconnect: c.reconnect,
            timeout: c.timeout,
            keepalive_time: c.keepalive_time,
            max_pdu_length: c.max_pdu_length,
            request_id: c.request_id,
            status_id: c.status_id,
            published: c.published,
        }
    }
}

impl From<Message> for ldp_ft_message {
    fn from(rust: Message) -> Self {
        ldp_ft_message {
            answer: rust.answer,
            r#type: rust.message_type,
            message_id: rust.message_id,
            kind: rust.kind,
            has: rust.has,
            fec_start: rust.fec_start,
            fec_end: rust.fec_end,
            label: rust.label,
            status: rust.status,
            number: rust.number,
            ack: rust.ack,
            reconnect: rust.reconnect,
            timeout: rust.timeout,
            keepalive_time: rust.keepalive_time,
            max_pdu_length: rust.max_pdu_length,
            request_id: rust.request_id,
            status_id: rust.status_id,
            published: rust.published,
        }
    }
}
