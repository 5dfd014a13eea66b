//! Our Inits in the published form, as tests/published/inits.txt keeps them for Wireshark's dissector to read.

use crate::stored::Stored;
use cabinet::{phase, Cabinet, Opening, Session};
use std::fmt::Write;
use support::hex;

/// Their names, whether they ask to resume, and the milliseconds that they propose.
const INITS: [(&str, bool, u32); 4] =
    [("fresh", false, 5_250), ("resuming", true, 30_000), ("for-ever", true, 0), ("longest", false, u32::MAX)];
/// The last number secured, which an Init that resumes acknowledges.
const SECURED: u32 = 7;

/// The file as a cabinet's Inits make it.
pub fn text(cabinet: &dyn Cabinet) -> String {
    let mut text = String::from(
        "# Our Inits in RFC 3479's form: name, R, reconnect timeout in milliseconds, the message.\n\
         # Written by: cd host && cargo run --release --bin inits > ../tests/published/inits.txt\n",
    );
    for (name, resumes, milliseconds) in INITS {
        let init = hex::digits(&written(cabinet, resumes, milliseconds));
        // Writing to a String cannot fail.
        let _ = writeln!(text, "{name} {} {milliseconds} {init}", u8::from(resumes));
    }
    text
}

fn written(cabinet: &dyn Cabinet, resumes: bool, milliseconds: u32) -> Vec<u8> {
    let stored = if resumes { Stored { secured: SECURED, kept: true, ..Stored::idle() } } else { Stored::idle() };
    let session = Session::new(if resumes { phase::FAILED } else { phase::IDLE }, 0);
    let opening = Opening {
        message_id: 1,
        keepalive_time: 30,
        max_pdu_length: 4096,
        receiver_lsr: 0x0AFF_0001,
        receiver_space: 0,
        proposal: Some(milliseconds),
        on_demand: false,
        published: true,
    };
    let mut out = [0; 50];
    let outcome = cabinet.open(&stored.image(0), session, &opening, &mut out);
    out[..outcome.length as usize].to_vec()
}
