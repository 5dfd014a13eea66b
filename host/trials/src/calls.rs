//! One call with all its inputs, made on any cabinet with guarded buffers, and all that can be seen of it afterwards.

use crate::guarded::Guarded;
use cabinet::{
    flags, phase, Cabinet, Converted, Distance, Extended, Message, Next, Opening, Outcome, Part, Pdu, Prefix, Request,
    Session, Summary, Words, FURTHER, PLACES,
};

/// A call and what its owner gives, but the image.
#[derive(Clone, Debug)]
pub enum Call {
    Format,
    Restore,
    Open { session: Session, opening: Opening, room: usize },
    InitReceived { session: Session, msg: Vec<u8> },
    ConnectionFailed { session: Session },
    TimePassed { session: Session, elapsed: u32 },
    Submit { session: Session, msg: Vec<u8> },
    SendNext { session: Session, ack: bool, room: usize },
    Keepalive { session: Session, message_id: u32, room: usize },
    Receive { session: Session, msg: Vec<u8> },
    PduOpen { pdu: Vec<u8> },
    PduMessage { pdu: Vec<u8>, at: usize },
    MessageRead { msg: Vec<u8> },
    Distance { from: u32, to: u32 },
    Successor { number: u32 },
    NextNumber { secured: u32, number: u32, resumed: bool },
    LesserTimeout { a: u32, b: u32 },
    BlockCheck { block: Vec<u8> },
    Label { place: u32 },
    RequestAt { place: u32 },
    PrefixAt { place: u32 },
    Summarize,
    Labels { room: usize },
    Held { place: u32 },
    Extend { stored_len: usize },
    ConvertForward { room: usize },
    ConvertBack { room: usize },
}

impl Call {
    pub fn name(&self) -> &'static str {
        match self {
            Call::Format => "format",
            Call::Restore => "restore",
            Call::Open { .. } => "open",
            Call::InitReceived { .. } => "init_received",
            Call::ConnectionFailed { .. } => "connection_failed",
            Call::TimePassed { .. } => "time_passed",
            Call::Submit { .. } => "submit",
            Call::SendNext { .. } => "send_next",
            Call::Keepalive { .. } => "keepalive",
            Call::Receive { .. } => "receive",
            Call::PduOpen { .. } => "pdu_open",
            Call::PduMessage { .. } => "pdu_message",
            Call::MessageRead { .. } => "message_read",
            Call::Distance { .. } => "distance",
            Call::Successor { .. } => "successor",
            Call::NextNumber { .. } => "next_number",
            Call::LesserTimeout { .. } => "lesser_timeout",
            Call::BlockCheck { .. } => "block_check",
            Call::Label { .. } => "label",
            Call::RequestAt { .. } => "request_at",
            Call::PrefixAt { .. } => "prefix_at",
            Call::Summarize => "summarize",
            Call::Labels { .. } => "labels",
            Call::Held { .. } => "held",
            Call::Extend { .. } => "extend",
            Call::ConvertForward { .. } => "convert_forward",
            Call::ConvertBack { .. } => "convert_back",
        }
    }

    /// The bytes of output that are lent.
    fn room(&self) -> usize {
        match self {
            Call::Open { room, .. }
            | Call::SendNext { room, .. }
            | Call::Keepalive { room, .. }
            | Call::ConvertForward { room }
            | Call::ConvertBack { room } => *room,
            _ => 0,
        }
    }

    /// The words that are lent.
    fn room_for_words(&self) -> usize {
        match self {
            Call::Labels { room } => *room,
            _ => 0,
        }
    }

    /// The bytes that the call reads.
    pub fn input(&self) -> &[u8] {
        match self {
            Call::InitReceived { msg, .. }
            | Call::Submit { msg, .. }
            | Call::Receive { msg, .. }
            | Call::MessageRead { msg } => msg,
            Call::PduOpen { pdu } | Call::PduMessage { pdu, .. } => pdu,
            Call::BlockCheck { block } => block,
            _ => &[],
        }
    }
}

/// What a call returned.
#[derive(Clone, Copy, Debug, PartialEq, Eq)]
pub enum Returned {
    Outcome(Outcome),
    Pdu(Pdu),
    Part(Part),
    Message(Message),
    Distance(Distance),
    Next(Next),
    Number(u32),
    NumberOrRefused(u32),
    Request(Request),
    Prefix(Prefix),
    Summary(Summary),
    Words(Words),
    Extended(Extended),
    Converted(Converted),
}

impl Returned {
    /// The answer; for the calls that return a bare number 0, or 1 where that number says "refused"; 1 for no Request
    /// and for no prefix.
    pub fn answer(&self) -> u32 {
        match self {
            Returned::Outcome(outcome) => outcome.answer,
            Returned::Pdu(pdu) => pdu.answer,
            Returned::Part(part) => part.answer,
            Returned::Message(message) => message.answer,
            Returned::Distance(distance) => distance.answer,
            Returned::Next(next) => next.answer,
            Returned::Number(_) => 0,
            Returned::NumberOrRefused(number) => u32::from(*number == u32::MAX),
            Returned::Request(request) => u32::from(request.open != 1),
            Returned::Prefix(prefix) => u32::from(prefix.indexed != 1),
            Returned::Summary(summary) => summary.answer,
            Returned::Words(words) => words.answer,
            Returned::Extended(extended) => extended.answer,
            Returned::Converted(converted) => converted.answer,
        }
    }

    /// How many messages were left out, of a call that tells it.
    pub fn left_out(&self) -> u32 {
        match self {
            Returned::Outcome(outcome) => outcome.left_out,
            Returned::Next(next) => next.left_out,
            _ => 0,
        }
    }
}

/// What is lent to a call; most calls look at some of it only.
pub struct Lent<'a> {
    pub image: &'a mut [u8],
    pub input: &'a [u8],
    pub out: &'a mut [u8],
    pub words: &'a mut [u32],
}

/// All that can be seen after a call.
#[derive(Clone, Debug, PartialEq, Eq)]
pub struct Observed {
    pub returned: Returned,
    pub image: Guarded<u8>,
    pub output: Guarded<u8>,
    pub input: Guarded<u8>,
    pub words: Guarded<u32>,
}

/// Makes a call on a copy of the image.
pub fn make(cabinet: &dyn Cabinet, image: &[u8], call: &Call, alignment: usize) -> Observed {
    let mut image = Guarded::new(image, alignment);
    let mut output = Guarded::unwritten(call.room(), alignment / 2);
    let mut words = Guarded::unwritten(call.room_for_words(), alignment);
    let input = Guarded::new(call.input(), alignment + 3);
    let lent = Lent { image: image.lend(), input: input.content(), out: output.lend(), words: words.lend() };
    let returned = invoke(cabinet, call, lent);
    Observed { returned, image, output, input, words }
}

/// Makes a call on what is lent.
pub fn invoke(cabinet: &dyn Cabinet, call: &Call, lent: Lent) -> Returned {
    let Lent { image, input, out, words } = lent;
    match *call {
        Call::Format => Returned::Outcome(cabinet.format(image)),
        Call::Restore => Returned::Outcome(cabinet.restore(image)),
        Call::Open { session, ref opening, .. } => Returned::Outcome(cabinet.open(image, session, opening, out)),
        Call::InitReceived { session, .. } => Returned::Outcome(cabinet.init_received(image, session, input)),
        Call::ConnectionFailed { session } => Returned::Outcome(cabinet.connection_failed(image, session)),
        Call::TimePassed { session, elapsed } => Returned::Outcome(cabinet.time_passed(image, session, elapsed)),
        Call::Submit { session, .. } => Returned::Outcome(cabinet.submit(image, session, input)),
        Call::SendNext { session, ack, .. } => Returned::Outcome(cabinet.send_next(image, session, ack, out)),
        Call::Keepalive { session, message_id, .. } => {
            Returned::Outcome(cabinet.keepalive(image, session, message_id, out))
        }
        Call::Receive { session, .. } => Returned::Outcome(cabinet.receive(image, session, input)),
        Call::PduOpen { .. } => Returned::Pdu(cabinet.pdu_open(input)),
        Call::PduMessage { at, .. } => Returned::Part(cabinet.pdu_message(input, at)),
        Call::MessageRead { .. } => Returned::Message(cabinet.message_read(input)),
        Call::Distance { from, to } => Returned::Distance(cabinet.distance(from, to)),
        Call::Successor { number } => Returned::Number(cabinet.successor(number)),
        Call::NextNumber { secured, number, resumed } => Returned::Next(cabinet.next_number(secured, number, resumed)),
        Call::LesserTimeout { a, b } => Returned::Number(cabinet.lesser_timeout(a, b)),
        Call::BlockCheck { .. } => Returned::NumberOrRefused(cabinet.block_check(input)),
        Call::Label { place } => Returned::NumberOrRefused(cabinet.label(image, place)),
        Call::RequestAt { place } => Returned::Request(cabinet.request_at(image, place)),
        Call::PrefixAt { place } => Returned::Prefix(cabinet.prefix_at(image, place)),
        Call::Summarize => Returned::Summary(cabinet.summarize(image)),
        Call::Labels { .. } => Returned::Words(cabinet.labels(image, words)),
        Call::Held { place } => Returned::Part(cabinet.held(image, place)),
        Call::Extend { stored_len } => Returned::Extended(cabinet.extend(image, stored_len)),
        Call::ConvertForward { .. } => Returned::Converted(cabinet.convert_forward(image, out)),
        Call::ConvertBack { .. } => Returned::Converted(cabinet.convert_back(image, out)),
    }
}

/// What is wrong with an observation whatever it was compared with: a touched guard, a changed input, output or words
/// written on a refusal or past their length, a block changed that the outcome does not name.
pub fn misconduct(before: &[u8], call: &Call, seen: &Observed) -> Option<&'static str> {
    let bytes_intact = [&seen.image, &seen.output, &seen.input].iter().all(|bytes| bytes.is_intact());
    if !(bytes_intact && seen.words.is_intact()) {
        return Some("a guard was touched");
    }
    if seen.input.content() != call.input() {
        return Some("the input was changed");
    }
    let outcome = match seen.returned {
        Returned::Outcome(outcome) => outcome,
        Returned::Extended(extended) => Outcome { further: extended.further, ..Outcome::default() },
        Returned::Converted(converted) => Outcome { length: converted.length, ..Outcome::default() },
        _ => Outcome::default(),
    };
    if !seen.output.is_unwritten_after(outcome.length as usize) {
        return Some("output was written past its length");
    }
    let words = if seen.returned.answer() == 0 { PLACES } else { 0 };
    if !seen.words.is_unwritten_after(words) {
        return Some("words were written on a refusal, or past the list");
    }
    let formatted = matches!(call, Call::Format) && outcome.answer == 0;
    let extended = matches!(call, Call::Extend { .. });
    if !formatted && changed_unnamed(before, seen.image.content(), &outcome, extended) {
        return Some("block0, further or slot does not tell what changed");
    }
    if names_several(call, &outcome) {
        return Some("more than one further block is named");
    }
    told_in_vain(call, &outcome)
}

/// A flag of a session that does not bear it, or messages left out by a call that leaves out none.
fn told_in_vain(call: &Call, outcome: &Outcome) -> Option<&'static str> {
    let Outcome { answer, session, left_out, .. } = *outcome;
    let borne = if session.phase == phase::UP_FT { flags::RESUMED } else { 0 };
    let as_given = (1..20).contains(&answer);
    if !as_given && session.flags & !borne != 0 {
        return Some("a flag is set that the phase does not bear");
    }
    let leaves_out = answer == 0 && matches!(call, Call::Receive { .. } | Call::SendNext { .. });
    (!leaves_out && left_out != 0).then_some("messages left out where none can be")
}

/// Further blocks beside each other: a call names one at most, but for format and an extension.
fn names_several(call: &Call, outcome: &Outcome) -> bool {
    !matches!(call, Call::Format | Call::Extend { .. }) && outcome.further_blocks().count() > 1
}

/// Slots and what an extension makes are named whether or not their bytes were the same.
fn changed_unnamed(before: &[u8], after: &[u8], outcome: &Outcome, extended: bool) -> bool {
    let blocks = before.chunks(512).zip(after.chunks(512));
    blocks.enumerate().any(|(number, (before, after))| {
        let changed = before != after;
        let named = outcome.stores().any(|block| block == number);
        if number == 0 || FURTHER.contains(&number) && !extended {
            changed != named
        } else {
            changed && !named
        }
    })
}
