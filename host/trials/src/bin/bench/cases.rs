//! What is measured: every call at 0, 8 and 64 held, short messages and long ones, label list empty and nearly full.

use cabinet::{phase, Opening, Session, FURTHER, IMAGE_SIZE, PLACES};
use trials::calls::Call;
use trials::coverage::ANSWERS;
use trials::entries::{entry, fec};
use trials::stored::{word, Queued, Stored, Version, NO_LABEL, REQUEST};
use trials::wire::{self, prefix, types, Message};

const LONG: usize = 480;
const NEARLY_FULL: usize = 118;
const OPEN: usize = 100;

/// One row of the table.
pub struct Case {
    pub call: Call,
    pub image: Vec<u8>,
    pub held: Option<usize>,
    pub messages: &'static str,
    pub labels: &'static str,
    pub about: &'static str,
    /// How many bytes the call must read at least once.
    pub must_read: usize,
}

/// How a state is filled.
#[derive(Clone, Copy)]
struct Fill {
    held: usize,
    length: usize,
    listed: usize,
    /// Open Requests, from the first word on; labels are then listed after them.
    open: usize,
}

impl Fill {
    fn messages(&self) -> &'static str {
        if self.length == LONG {
            "480 bytes"
        } else {
            "short"
        }
    }

    fn labels(&self) -> &'static str {
        if self.open > 0 {
            "100 asked"
        } else if self.listed == 0 {
            "empty"
        } else {
            "118 of 119"
        }
    }

    /// A session that holds so many Mappings, all of them with numbers.
    fn stored(&self) -> Stored {
        let queued = |n: usize| {
            let label = 1_000 + n as u32;
            Queued { kind: 1, label, bytes: mapping(label).padded_to(self.length).bytes() }
        };
        let mut stored = Stored {
            released: 100,
            issued: 100 + self.held as u32,
            secured: 50,
            first: 40,
            timeout: 5_000,
            kept: true,
            keepalive_time: 30,
            max_pdu_length: 4096,
            queue: (0..self.held).map(queued).collect(),
            ..Stored::idle()
        };
        for place in 0..self.listed {
            stored.labels[place] = word(5_000 + 7 * place as u32, if place % 2 == 0 { 1 } else { 3 });
        }
        for place in 0..self.open {
            (stored.labels[place], stored.ids[place]) = (REQUEST, request_at(place));
        }
        stored
    }
}

/// The ID of the open Request at a place.
fn request_at(place: usize) -> u32 {
    7_000 + 3 * place as u32
}

fn mapping(label: u32) -> Message {
    Message::new(types::MAPPING, label).fec(&prefix(label as u16)).label(label)
}

/// All rows.
pub fn all() -> Vec<Case> {
    let mut cases = Vec::new();
    for listed in [0, NEARLY_FULL] {
        for held in [0, 8, 64] {
            for length in [0, LONG] {
                let fill = Fill { held, length, listed, open: 0 };
                if held > 0 || length == 0 {
                    cases.extend(without_message(fill));
                }
                cases.extend(with_message(fill));
            }
        }
    }
    for held in [0, 8, 63] {
        cases.extend(about_requests(Fill { held, length: 0, listed: 0, open: OPEN }));
    }
    cases.extend(leaving_out());
    cases.extend(with_prefixes());
    cases.extend(by_prefix());
    cases.extend(pure());
    cases.sort_by_key(|case| order(&case.call));
    cases
}

/// The rows of one call stand together.
fn order(call: &Call) -> usize {
    ANSWERS.iter().take_while(|(name, _)| *name != call.name()).count()
}

fn case(fill: Fill, about: &'static str, call: Call) -> Case {
    let must_read = match call {
        Call::ConvertForward { .. } | Call::ConvertBack { .. } => IMAGE_SIZE,
        _ => 512 * (1 + fill.held + FURTHER.len()) + call.input().len(),
    };
    let image = fill.stored().image(0);
    Case { call, image, held: Some(fill.held), messages: fill.messages(), labels: fill.labels(), about, must_read }
}

/// The same case with its image in version 1.
fn earlier(case: Case) -> Case {
    let stored = Stored::read(&case.image).moved(Version::One);
    Case { image: stored.map_or(Vec::new(), |stored| stored.image(0)), ..case }
}

/// Calls that are given no message.
fn without_message(fill: Fill) -> Vec<Case> {
    let up = Session::new(phase::UP_FT, 0);
    let all = 100 + fill.held as u32;
    let newest = fill.held.saturating_sub(1) as u32;
    let init = |ack| Message::new(types::INITIALIZATION, 1).parameters(30, 4096).ft_session(true, 5).ack(ack).bytes();
    let wait = Session::new(phase::INIT_WAIT, 5_000);
    let opening =
        Opening { message_id: 1, keepalive_time: 30, max_pdu_length: 4096, proposal: Some(5), ..Opening::default() };
    let published = Opening { proposal: Some(5_000), published: true, ..opening };
    let down = Session::new(phase::FAILED, 0);
    let keepalive = Message::new(types::KEEPALIVE, 1).ack(all).bytes();
    let mut cases = vec![
        case(fill, "", Call::Restore),
        case(fill, "", Call::Open { session: down, opening, room: 64 }),
        case(fill, "published form", Call::Open { session: down, opening: published, room: 64 }),
        case(fill, "resumes, releases none", Call::InitReceived { session: wait, msg: init(100) }),
        case(fill, "", Call::ConnectionFailed { session: up }),
        case(fill, "too early", Call::TimePassed { session: down, elapsed: 4_999 }),
        case(fill, "", Call::Keepalive { session: up, message_id: 1, room: 16 }),
        case(fill, "KeepAlive, ACK of all", Call::Receive { session: up, msg: keepalive }),
        case(fill, "", Call::Label { place: 60 }),
        case(fill, "", Call::Summarize),
        case(fill, "", Call::Labels { room: PLACES }),
        case(fill, if fill.held == 0 { "none held" } else { "the newest" }, Call::Held { place: newest }),
        case(fill, "", Call::ConvertBack { room: IMAGE_SIZE }),
        earlier(case(fill, "", Call::ConvertForward { room: IMAGE_SIZE })),
    ];
    if fill.held > 0 {
        cases.push(case(fill, "sent before", Call::SendNext { session: up, ack: true, room: 500 }));
        let mut first_sent = case(fill, "gets its number", Call::SendNext { session: up, ack: true, room: 500 });
        first_sent.image = Stored { issued: 100, ..fill.stored() }.image(0);
        cases.push(first_sent);
    }
    cases
}

/// Calls that are given a Mapping of the length that the held messages have.
fn with_message(fill: Fill) -> Vec<Case> {
    let new = mapping(900_000).padded_to(fill.length);
    let received = mapping(900_000).protection(51).ack(100).padded_to(fill.length);
    let submit = Call::Submit { session: Session::new(phase::FAILED, 0), msg: new.bytes() };
    let about = if fill.held == 64 { "refused with 7" } else { "Mapping" };
    let mut cases = vec![
        case(fill, about, submit.clone()),
        case(
            fill,
            "Mapping, protected",
            Call::Receive { session: Session::new(phase::UP_FT, 0), msg: received.bytes() },
        ),
    ];
    if fill.held == 64 {
        cases.push(case(Fill { held: 63, ..fill }, "Mapping, the 64th", submit));
    }
    cases
}

/// Requests, their Aborts and their answers, with 100 open; the last of them is the one that ends.
fn about_requests(fill: Fill) -> Vec<Case> {
    let up = Session::new(phase::UP_FT, 0);
    let last = request_at(fill.open - 1);
    let request = asking(types::REQUEST, 9).bytes();
    let abort = asking(types::ABORT, 9).request_id(last).bytes();
    let answer = mapping(900_000).request_id(last).protection(51).ack(100).bytes();
    let refusal = Message::new(types::NOTIFICATION, 9).status_of(0x0D, last).protection(51).ack(100).bytes();
    vec![
        case(fill, "", Call::Restore),
        case(fill, "Request", Call::Submit { session: up, msg: request }),
        case(fill, "Abort", Call::Submit { session: up, msg: abort }),
        case(fill, "Mapping, answers", Call::Receive { session: up, msg: answer }),
        case(fill, "Notification, answers", Call::Receive { session: up, msg: refusal }),
        case(fill, "", Call::RequestAt { place: 60 }),
    ]
}

/// Send next of a store full of Requests, or of half as many with their Aborts behind them, in the same order or the
/// other way round; and a message after as many as can be left out.
fn leaving_out() -> Vec<Case> {
    let fill = Fill { held: 64, length: 0, listed: 0, open: 0 };
    let request = |id: u32| Queued { kind: 7, label: NO_LABEL, bytes: asking(types::REQUEST, id).bytes() };
    let abort = |id: u32| Queued { kind: 8, label: NO_LABEL, bytes: asking(types::ABORT, 99).request_id(id).bytes() };
    let send = |about, queue: Vec<Queued>| {
        let call = Call::SendNext { session: Session::resumed(0), ack: true, room: 500 };
        Case { image: Stored { queue, ..fill.stored() }.image(0), ..case(fill, about, call) }
    };
    let in_order = (0..32).map(request).chain((0..32).map(abort)).collect();
    let in_other_order = (0..32).map(request).chain((0..32).rev().map(abort)).collect();
    let jump = mapping(900_000).protection(50 + 64).ack(100).bytes();
    vec![
        send("32 left out, in order", in_order),
        send("32 left out, the other way", in_other_order),
        send("a Request, no Abort", (0..64).map(request).collect()),
        case(fill, "Mapping, after 63 left out", Call::Receive { session: Session::resumed(0), msg: jump }),
    ]
}

/// The prefix of some of the labels, and that of all others.
const PREFIX: u32 = 0x0A00_0000;
const OTHER_PREFIX: u32 = 0x0B00_0000;

/// The peer's labels from the first word on, each with a prefix; nothing is held, as in a cabinet most of the time.
fn indexed(listed: usize, of_prefix: usize) -> Stored {
    let mut stored = Fill { held: 0, length: 0, listed: 0, open: 0 }.stored();
    stored.entries = std::array::from_fn(|place| entry(8, if place < of_prefix { PREFIX } else { OTHER_PREFIX }));
    for place in 0..listed {
        stored.labels[place] = word(5_000 + place as u32, 3);
    }
    stored
}

/// A call on such a list.
fn on_indexed(about: &'static str, stored: &Stored, call: Call) -> Case {
    let listed = stored.labels.iter().filter(|word| **word != 0).count();
    let labels = if listed == PLACES { "119 indexed" } else { "118 indexed" };
    Case { image: stored.image(0), labels, ..case(Fill { held: 0, length: 0, listed, open: 0 }, about, call) }
}

/// Calls that judge, write and look for 120 entries.
fn with_prefixes() -> Vec<Case> {
    let (up, down) = (Session::new(phase::UP_FT, 0), Session::new(phase::FAILED, 0));
    let (nearly_full, full) = (indexed(NEARLY_FULL, 0), indexed(PLACES, 0));
    let new = mapping(900_000);
    let received = |message: Message| Call::Receive { session: up, msg: message.protection(51).ack(100).bytes() };
    let moves = || received(Message::new(types::MAPPING, 1).fec(&prefix(9)).label(5_000));
    vec![
        on_indexed("", &nearly_full, Call::Restore),
        on_indexed("Mapping", &nearly_full, Call::Submit { session: down, msg: new.bytes() }),
        on_indexed("Mapping, protected", &nearly_full, received(new)),
        on_indexed("Mapping, moves its label", &nearly_full, moves()),
        on_indexed("Mapping, 21 for a move", &full, moves()),
        on_indexed("", &nearly_full, Call::PrefixAt { place: 60 }),
    ]
}

/// Withdraws of a prefix, with no label, that so many labels have.
fn by_prefix() -> Vec<Case> {
    let withdraw = Message::new(types::WITHDRAW, 1).fec(&fec(8, PREFIX)).protection(51).ack(100).bytes();
    let of = |(count, about)| {
        let call = Call::Receive { session: Session::new(phase::UP_FT, 0), msg: withdraw.clone() };
        on_indexed(about, &indexed(NEARLY_FULL, count), call)
    };
    let counts = [
        (0, "Withdraw of a prefix, no label"),
        (1, "Withdraw of a prefix, 1 label"),
        (2, "Withdraw of a prefix, 2 labels"),
        (60, "Withdraw of a prefix, 60 labels"),
    ];
    counts.map(of).into()
}

/// A Request, or an Abort that names none yet.
fn asking(message_type: u16, id: u32) -> Message {
    Message::new(message_type, id).fec(&prefix(9))
}

fn pure_case(about: &'static str, call: Call, must_read: usize) -> Case {
    Case { call, image: Vec::new(), held: None, messages: "", labels: "", about, must_read }
}

/// Calls that read no image.
fn pure() -> Vec<Case> {
    let short = mapping(16).protection(1);
    let long = short.clone().padded_to(LONG);
    let mut messages = vec![short.bytes(); 110];
    let length = 10 + messages.concat().len();
    messages.push(Message::new(types::KEEPALIVE, 1).padded_to(4_000 - length).bytes());
    let pdu = wire::pdu(1, &messages);
    let on_idle = |about, call| Case { image: Stored::idle().image(0), ..pure_case(about, call, 0) };
    vec![
        on_idle("", Call::Format),
        on_idle("from 33,280 bytes", Call::Extend { stored_len: 33_280 }),
        on_idle("from 33,792 bytes", Call::Extend { stored_len: 33_792 }),
        pure_case("4,000 bytes, 111 messages", Call::PduOpen { pdu: pdu.clone() }, pdu.len()),
        pure_case("one message", Call::PduMessage { pdu, at: 10 }, 4),
        pure_case("Mapping, short", Call::MessageRead { msg: short.bytes() }, short.length()),
        pure_case("Mapping, 480 bytes", Call::MessageRead { msg: long.bytes() }, long.length()),
        pure_case("", Call::Distance { from: 0xFFFF_FFF0, to: 16 }, 0),
        pure_case("", Call::Successor { number: 27 }, 0),
        pure_case("63 left out", Call::NextNumber { secured: 0xFFFF_FFF0, number: 49, resumed: true }, 0),
        pure_case("", Call::LesserTimeout { a: 0, b: 5 }, 0),
        pure_case("", Call::BlockCheck { block: long.bytes().into_iter().cycle().take(512).collect() }, 508),
    ]
}
