//! Calls that fit a state, and calls that do not: wrong phases, phases that do not exist, counts past issued.

use super::{inits, malformed, messages, states};
use crate::calls::Call;
use crate::random::Random;
use crate::stored::{steps_after, word_lists_label, Stored, Version, REQUEST};
use cabinet::{flags, phase, Opening, Session, IMAGE_SIZE};

const EDGES: [u32; 9] = [0, 1, 2, 0x7FFF_FFFF, 0x8000_0000, 0x8000_0001, 0xFFFF_FFFD, 0xFFFF_FFFE, 0xFFFF_FFFF];

/// A session in one of the phases given, mostly one that the image allows.
fn session(random: &mut Random, stored: &Stored, phases: &[u32]) -> Session {
    let phase = if random.percent(90) { random.pick(phases) } else { random.pick(&[0, 1, 2, 3, 4, 5, 6, u32::MAX]) };
    let value = match phase {
        phase::UP_FT => match random.below(20) {
            0 => stored.numbered() as u32 + 1,
            1 => random.u32(),
            2..=6 => stored.numbered() as u32,
            7..=11 => 0,
            _ => random.between(0, stored.numbered()) as u32,
        },
        phase::INIT_WAIT => match random.below(20) {
            0 => 65_536,
            _ => states::milliseconds(random),
        },
        _ => random.pick(&[0, 0, 7, u32::MAX]),
    };
    Session { phase, value, flags: flags(random) }
}

/// Resumed or not in most cases, at times with bits that no phase bears.
fn flags(random: &mut Random) -> u32 {
    match random.below(10) {
        0..=3 => 0,
        4..=7 => flags::RESUMED,
        8 => random.u32(),
        _ => random.pick(&[2, 3, u32::MAX, u32::MAX - 1]),
    }
}

/// The phases among those given that the state allows, or all of them where it allows none.
fn fitting(stored: &Stored, phases: &[u32]) -> Vec<u32> {
    let fits = |phase: &u32| match *phase {
        phase::IDLE | phase::UP_PLAIN => !stored.kept,
        phase::UP_FT | phase::FAILED => stored.kept,
        _ => true,
    };
    let fitting: Vec<u32> = phases.iter().copied().filter(fits).collect();
    if fitting.is_empty() {
        phases.to_vec()
    } else {
        fitting
    }
}

fn opening(random: &mut Random) -> Opening {
    Opening {
        message_id: random.u32(),
        keepalive_time: random.u16(),
        max_pdu_length: random.u16(),
        receiver_lsr: random.u32(),
        receiver_space: random.u16(),
        proposal: if random.percent(30) { None } else { Some(proposal(random)) },
        on_demand: random.percent(50),
        published: random.percent(50),
    }
}

/// A number that either form takes in its own unit, also one for which the draft's has no room.
fn proposal(random: &mut Random) -> u32 {
    match random.below(10) {
        0..=1 => random.pick(&[65_534, 65_535, 65_536, 65_541, u32::MAX]),
        2..=4 => states::milliseconds(random),
        _ => u32::from(states::seconds(random)),
    }
}

/// Milliseconds around the agreed timeout, and as many as if they were seconds.
fn elapsed(random: &mut Random, stored: &Stored) -> u32 {
    let timeout = stored.timeout;
    let (before, after) = (timeout.saturating_sub(1), timeout.saturating_add(1));
    random.pick(&[0, before, before, timeout, after, timeout / 1_000, 65_536, u32::MAX])
}

/// A call on an image of the state; mostly the converter on one of version 1, which no other call takes.
pub fn on_image(random: &mut Random, stored: &Stored) -> Call {
    if stored.version == Version::One && random.percent(85) {
        convert(random, stored)
    } else {
        any_on_image(random, stored)
    }
}

fn any_on_image(random: &mut Random, stored: &Stored) -> Call {
    let session = |random: &mut Random, phases: &[u32]| session(random, stored, &fitting(stored, phases));
    match random.below(100) {
        0 => Call::Format,
        1..=6 => Call::Restore,
        7..=13 => Call::Open {
            session: session(random, &[phase::IDLE, phase::FAILED]),
            opening: opening(random),
            room: random.pick(&[0, 33, 34, 35, 41, 42, 43, 49, 50, 51, 64, 64, 64, 64]),
        },
        14..=27 => {
            Call::InitReceived { session: session(random, &[phase::INIT_WAIT]), msg: inits::init(random, stored) }
        }
        28..=32 => {
            Call::ConnectionFailed { session: session(random, &[phase::INIT_WAIT, phase::UP_FT, phase::UP_PLAIN]) }
        }
        33..=37 => Call::TimePassed { session: session(random, &[phase::FAILED]), elapsed: elapsed(random, stored) },
        38..=55 => Call::Submit {
            session: session(random, &[phase::INIT_WAIT, phase::UP_FT, phase::FAILED]),
            msg: messages::submission(random, stored),
        },
        56..=70 => Call::SendNext {
            session: session(random, &[phase::UP_FT]),
            ack: random.percent(50),
            room: random.pick(&[0, 15, 16, 24, 36, 44, 487, 488, 495, 496, 500, 500, 500]),
        },
        71..=72 => Call::Keepalive {
            session: session(random, &[phase::UP_FT, phase::UP_PLAIN]),
            message_id: random.u32(),
            room: random.pick(&[0, 7, 8, 9, 15, 16, 17, 40]),
        },
        73..=93 => Call::Receive {
            session: session(random, &[phase::UP_FT, phase::UP_PLAIN]),
            msg: messages::received(random, stored),
        },
        _ => look(random, stored),
    }
}

/// The converter, mostly from the version that the state has, with room for an image in most cases.
fn convert(random: &mut Random, stored: &Stored) -> Call {
    let room = random.pick(&[0, 512, 33_792, IMAGE_SIZE - 1, IMAGE_SIZE, IMAGE_SIZE, IMAGE_SIZE, IMAGE_SIZE + 1]);
    if (stored.version == Version::One) == random.percent(90) {
        Call::ConvertForward { room }
    } else {
        Call::ConvertBack { room }
    }
}

/// A call that shows what an image holds, moves it, or makes it longer before anybody looks.
fn look(random: &mut Random, stored: &Stored) -> Call {
    match random.below(13) {
        9.. => convert(random, stored),
        0 => Call::Label { place: place(random, stored) },
        1 => Call::RequestAt { place: place(random, stored) },
        8 => Call::PrefixAt { place: place_listed(random, stored) },
        2..=3 => Call::Summarize,
        4..=5 => Call::Labels { room: random.pick(&[0, 1, 118, 119, 119, 119, 120, 200]) },
        6 => Call::Held { place: place_held(random, stored) },
        _ => Call::Extend { stored_len: random.pick(&[33_280, 33_280, 33_792, 33_792, 34_304, 34_816, 33_279, 0]) },
    }
}

/// A place of the send store: one of those held in many cases, the one after the last, or one that it does not have.
fn place_held(random: &mut Random, stored: &Stored) -> u32 {
    let held = stored.queue.len() as u32;
    random.pick(&[0, held / 2, held.saturating_sub(1), held, held + 1, 63, 64, u32::MAX])
}

/// A place of the label list, one of an open Request in many cases, or one that it does not have.
fn place(random: &mut Random, stored: &Stored) -> u32 {
    let open = stored.labels.iter().position(|word| *word == REQUEST).unwrap_or(60) as u32;
    random.pick(&[open, open, open, open, 0, 1, 117, 118, 119, 120, u32::MAX])
}

/// A place of the label list: one of a label that is listed in many cases, in either block of the index.
fn place_listed(random: &mut Random, stored: &Stored) -> u32 {
    let listed: Vec<usize> = (0..stored.labels.len()).filter(|place| word_lists_label(stored.labels[*place])).collect();
    match random.below(10) {
        0..=6 if !listed.is_empty() => random.pick(&listed) as u32,
        _ => random.pick(&[0, 59, 60, 118, 119, 120, u32::MAX]),
    }
}

fn edge(random: &mut Random) -> u32 {
    if random.percent(70) {
        random.pick(&EDGES)
    } else {
        random.u32()
    }
}

/// A call that reads no image.
pub fn pure(random: &mut Random, stored: &Stored) -> Call {
    match random.below(12) {
        0..=1 => Call::PduOpen { pdu: malformed::pdu(random, stored) },
        2..=3 => {
            let pdu = malformed::pdu(random, stored);
            let at = random.pick(&[0, 10, 10, 10, pdu.len().saturating_sub(8), pdu.len(), usize::MAX, usize::MAX - 3]);
            Call::PduMessage { at: if random.percent(20) { random.between(0, pdu.len()) } else { at }, pdu }
        }
        4..=5 => Call::MessageRead { msg: messages::any(random, stored) },
        6 => Call::Distance { from: edge(random), to: edge(random) },
        7 => Call::Successor { number: edge(random) },
        8 => Call::LesserTimeout { a: edge(random), b: edge(random) },
        9..=10 => {
            let (secured, resumed) = (edge(random), random.percent(70));
            let (ahead, other) = (steps_after(secured, random.between(0, 70) as u64), edge(random));
            Call::NextNumber { secured, number: random.pick(&[ahead, ahead, ahead, other, 0]), resumed }
        }
        _ => {
            let length = random.pick(&[0, 507, 508, 509, 512, 512, 512, 600]);
            let fill = random.pick(&[0x00, 0xFF, 0x80]);
            let block = if random.percent(50) { random.bytes(length) } else { vec![fill; length] };
            Call::BlockCheck { block }
        }
    }
}
