//! The order of the answers: of several faults at once the first in the paper's order is named.

use cabinet::{phase, Cabinet, Opening, Session, PLACES};
use model::Model;
use trials::entries::{entry_of, NO_ENTRY};
use trials::stored::{word, Queued, Stored, ENTRY_PLACES, REQUEST, STOPPED, STOPPING};
use trials::under_test::UnderTest;
use trials::wire::{prefix, types, Message};

fn both() -> [&'static dyn Cabinet; 2] {
    [&UnderTest, &Model]
}

fn in_phase(phase: u32) -> Session {
    Session::new(phase, 0)
}

/// A kept state that has secured 10 and lists labels with the codes given, from label 700 on, of the FEC that the
/// messages have.
fn listing(codes: &[u32]) -> Stored {
    let entries = [entry_of(&prefix(1)); ENTRY_PLACES];
    let mut stored = Stored { secured: 10, kept: true, timeout: 5_000, entries, ..Stored::idle() };
    for (place, code) in codes.iter().enumerate() {
        stored.labels[place] = word(700 + place as u32, *code);
    }
    stored
}

fn mapping(label: u32) -> Message {
    Message::new(types::MAPPING, 1).fec(&prefix(1)).label(label)
}

fn assert_received(stored: &Stored, phase: u32, message: Message, answer: u32) {
    for cabinet in both() {
        let outcome = cabinet.receive(&mut stored.image(0), in_phase(phase), &message.bytes());
        assert_eq!(outcome.answer, answer, "{message:?}");
    }
}

#[test]
fn receive_in_up_ft() {
    let fatal = |number, ack| Message::new(types::NOTIFICATION, 1).status(0x8000_0001).protection(number).ack(ack);
    let up = |stored: &Stored, message, answer| assert_received(stored, phase::UP_FT, message, answer);
    up(&listing(&[]), fatal(0, 9).label(1 << 20), 22);
    up(&listing(&[]), fatal(0, 9), 36);
    up(&listing(&[6]), mapping(700).protection(0).ack(9), 30);
    up(&listing(&[6]), mapping(700).protection(99).ack(9), 34);
    up(&listing(&[3]), mapping(700).ack(9), 34);
    up(&listing(&[3]), mapping(700).ack(0), 33);
    up(&listing(&[6]), mapping(700).protection(99).ack(0), 32);
    up(&listing(&[3; PLACES]), mapping(16).protection(99).ack(0), 20);
    up(&listing(&[3; PLACES]), mapping(16).protection(11).ack(0), 21);
    up(&listing(&[3; PLACES]), mapping(16).ack(0), 21);
    up(&listing(&[3; PLACES - 1]), mapping(16).protection(11).ack(0), 0);
}

/// A Mapping that moves its label has the same order; its label needs a word where it would not need one without the
/// move.
#[test]
fn receive_of_a_mapping_that_moves_its_label() {
    let other = |codes: &[u32]| Stored { entries: [NO_ENTRY; ENTRY_PLACES], ..listing(codes) };
    let up = |stored: &Stored, message, answer| assert_received(stored, phase::UP_FT, message, answer);
    for code in [3, 4, 5] {
        let full = [&[code][..], &[3; PLACES - 1]].concat();
        up(&other(&full), mapping(700).ack(0), 33);
        up(&other(&full), mapping(700).protection(99).ack(0), 20);
        up(&other(&full), mapping(700).protection(11).ack(0), 21);
        up(&listing(&full), mapping(700).protection(11).ack(0), 0);
        up(&other(&full[..PLACES - 1]), mapping(700).protection(11).ack(0), 0);
    }
    let full = [&[6][..], &[3; PLACES - 1]].concat();
    up(&other(&full), mapping(700).protection(99).ack(0), 32);
    up(&other(&full), mapping(700).ack(0), 21);
    up(&listing(&full), mapping(700).ack(0), 0);
}

/// A Withdraw or Release of a prefix: 33 where one of its labels is protected, and never 32.
#[test]
fn receive_of_a_prefix_without_a_label() {
    let up = |stored: &Stored, message, answer| assert_received(stored, phase::UP_FT, message, answer);
    let about = |message_type| Message::new(message_type, 1).fec(&prefix(1));
    for code in [3, 4, 5] {
        up(&listing(&[6, code]), about(types::WITHDRAW).ack(9), 34);
        up(&listing(&[6, code]), about(types::WITHDRAW), 33);
        up(&listing(&[6, code]), about(types::WITHDRAW).protection(99), 20);
        up(&listing(&[6, code]), about(types::WITHDRAW).protection(11), 0);
        up(&listing(&[6, code]), about(types::RELEASE), 0);
    }
    for code in [1, 2, 8, 9] {
        up(&listing(&[6, code]), about(types::RELEASE), 33);
        up(&listing(&[6, code]), about(types::RELEASE).protection(11), 0);
        up(&listing(&[6, code]), about(types::WITHDRAW), 0);
    }
}

#[test]
fn receive_in_up_plain() {
    let plain = |message, answer| assert_received(&Stored::idle(), phase::UP_PLAIN, message, answer);
    let status = |status| Message::new(types::NOTIFICATION, 1).status(status);
    plain(Message::new(types::INITIALIZATION, 1).status(0x8000_0001), 22);
    plain(status(0x8000_0001).protection(0), 36);
    plain(status(1).protection(0), 31);
    plain(status(1).ack(0), 31);
    plain(status(1).ft_session(false, 0), 31);
    plain(status(1), 0);
    plain(mapping(700), 0);
}

/// A state that holds one message with a number.
fn holding(codes: &[u32], message_type: u16, kind: u8, label: u32) -> Stored {
    let bytes = Message::new(message_type, 1).fec(&prefix(1)).label(label).bytes();
    Stored { issued: 1, queue: vec![Queued { kind, label, bytes }], ..listing(codes) }
}

#[test]
fn labels_are_judged_as_the_ack_leaves_them() {
    let withdrawn = holding(&[2], types::WITHDRAW, 2, 700);
    let release = || Message::new(types::RELEASE, 1).fec(&prefix(1)).label(700);
    assert_received(&withdrawn, phase::UP_FT, release(), 33);
    // its own ACK makes 8 of 2, which is not to be touched either; of 9, whose Release has come, it frees the label
    assert_received(&withdrawn, phase::UP_FT, release().ack(1), 33);
    let released = holding(&[9], types::WITHDRAW, 2, 700);
    assert_received(&released, phase::UP_FT, release(), 33);
    assert_received(&released, phase::UP_FT, release().ack(1), 0);
    // the word that its own ACK frees is not free in the old block 0, and not taken; one that was free before is
    let mut full = holding(&[3; PLACES], types::RELEASE, 3, 700);
    full.labels[0] = word(700, 5);
    assert_received(&full, phase::UP_FT, mapping(16).protection(11), 21);
    assert_received(&full, phase::UP_FT, mapping(16).protection(11).ack(1), 21);
    full.labels[7] = 0;
    assert_received(&full, phase::UP_FT, mapping(16).protection(11).ack(1), 0);
}

#[test]
fn after_20_to_23_the_ack_is_unapplied_and_unprotected_labels_are_free() {
    for cabinet in both() {
        let stored = holding(&[2, 6], types::WITHDRAW, 2, 700);
        let mut image = stored.image(0);
        let out_of_turn = mapping(16).protection(12).ack(1).bytes();
        let outcome = cabinet.receive(&mut image, Session::new(phase::UP_FT, 1), &out_of_turn);
        assert_eq!((outcome.answer, outcome.session, outcome.block0), (20, in_phase(phase::FAILED), 1));
        let mut expected = stored;
        expected.labels[1] = 0;
        assert_eq!(Stored::read(&image), expected);
    }
}

fn full_ring(codes: &[u32]) -> Stored {
    let address = Queued { kind: 4, label: u32::MAX, bytes: Message::new(types::ADDRESS, 1).bytes() };
    Stored { queue: vec![address; 64], ..listing(codes) }
}

fn assert_submitted(stored: &Stored, phase: u32, message: Message, answer: u32) {
    for cabinet in both() {
        let mut image = stored.image(0);
        let outcome = cabinet.submit(&mut image, in_phase(phase), &message.bytes());
        assert_eq!(outcome.answer, answer, "{message:?}");
        if answer != 0 {
            assert_eq!(image, stored.image(0), "{message:?}");
        }
    }
}

#[test]
fn submit() {
    let full = full_ring(&[2; PLACES]);
    assert_submitted(&full, phase::IDLE, mapping(1 << 20).padded_to(481), 1);
    assert_submitted(&full, phase::FAILED, mapping(1 << 20).padded_to(481), 3);
    assert_submitted(&full, phase::FAILED, mapping(1 << 20).ack(1), 4);
    assert_submitted(&full, phase::FAILED, mapping(700).ack(1), 5);
    assert_submitted(&full, phase::FAILED, mapping(700), 6);
    assert_submitted(&full, phase::FAILED, mapping(15), 6);
    assert_submitted(&full, phase::FAILED, mapping(16), 13);
    let other = Stored { entries: [NO_ENTRY; ENTRY_PLACES], ..full_ring(&[1; PLACES]) };
    assert_submitted(&other, phase::FAILED, mapping(700), 6);
    assert_submitted(&full_ring(&[1; PLACES]), phase::FAILED, mapping(700), 7);
    assert_submitted(&full_ring(&[]), phase::FAILED, mapping(16), 7);
    assert_submitted(&listing(&[1]), phase::FAILED, Message::new(types::MAPPING, 1).label(16), 4);
    assert_submitted(&listing(&[1]), phase::FAILED, Message::new(types::WITHDRAW, 1).fec(&prefix(1)), 5);
}

/// Open Requests with IDs from 0 on, in the first words.
fn asking(stored: Stored, open: usize) -> Stored {
    let mut stored = stored;
    for place in 0..open {
        (stored.labels[place], stored.ids[place]) = (REQUEST, place as u32);
    }
    stored
}

/// 02: "14, Requests stopped, after 6; 15, a Request outside UpFT, after 14; 13 also for a Request".
#[test]
fn submit_of_a_request() {
    let request = |id| Message::new(types::REQUEST, id).fec(&prefix(1));
    let stopped = |stored| Stored { marks: STOPPED | STOPPING, ..stored };
    let full = stopped(asking(full_ring(&[]), PLACES));
    assert_submitted(&full, phase::IDLE, request(5).padded_to(481), 1);
    assert_submitted(&full, phase::FAILED, request(5).padded_to(481), 3);
    assert_submitted(&full, phase::FAILED, Message::new(types::REQUEST, 5), 4);
    assert_submitted(&full, phase::FAILED, request(5).ack(1), 5);
    assert_submitted(&full, phase::FAILED, request(5), 6);
    assert_submitted(&full, phase::FAILED, request(0), 6);
    assert_submitted(&full, phase::FAILED, request(500), 14);
    assert_submitted(&full, phase::UP_FT, request(500), 14);
    let full = Stored { marks: STOPPING, ..full };
    for phase in [phase::INIT_WAIT, phase::FAILED] {
        assert_submitted(&full, phase, request(500), 15);
        assert_submitted(&full, phase, request(5), 6);
    }
    assert_submitted(&full, phase::UP_FT, request(500), 13);
    assert_submitted(&asking(full_ring(&[]), PLACES - 1), phase::UP_FT, request(500), 7);
    assert_submitted(&asking(listing(&[]), PLACES - 1), phase::UP_FT, request(500), 0);
}

/// 02: "6 also for .. an Abort of none"; 14 and 15 are for Requests alone.
#[test]
fn submit_of_an_abort() {
    let abort = |id| Message::new(types::ABORT, 5).fec(&prefix(1)).request_id(id);
    let full = Stored { marks: STOPPED, ..asking(full_ring(&[]), PLACES) };
    assert_submitted(&full, phase::FAILED, Message::new(types::ABORT, 5).fec(&prefix(1)), 4);
    assert_submitted(&full, phase::FAILED, Message::new(types::ABORT, 5).request_id(1), 4);
    assert_submitted(&full, phase::FAILED, abort(1).protection(1), 5);
    assert_submitted(&full, phase::FAILED, abort(119), 6);
    assert_submitted(&full, phase::FAILED, abort(118), 7);
    let open = Stored { marks: STOPPED, ..asking(listing(&[]), 2) };
    for phase in [phase::INIT_WAIT, phase::UP_FT, phase::FAILED] {
        assert_submitted(&open, phase, abort(0), 0);
        assert_submitted(&open, phase, abort(2), 6);
    }
    // The ID of a Request that is over does not count.
    let mut over = asking(listing(&[]), 2);
    over.labels[1] = 0;
    assert_submitted(&over, phase::FAILED, abort(1), 6);
    over.labels[1] = word(700, 3);
    assert_submitted(&over, phase::FAILED, abort(1), 6);
}

/// A message that is turned away ends no Request, and the ACK that comes with it ends none either.
#[test]
fn a_refused_answer_ends_no_request() {
    let stored = asking(listing(&[]), 3);
    for cabinet in both() {
        for (answer, message) in [(20, mapping(16).request_id(1).protection(99)), (22, mapping(1 << 20).request_id(1))]
        {
            let mut image = stored.image(0);
            assert_eq!(cabinet.receive(&mut image, in_phase(phase::UP_FT), &message.bytes()).answer, answer);
            assert_eq!(Stored::read(&image), stored);
        }
    }
}

#[test]
fn a_message_of_the_same_kind_and_label_that_is_still_held_bars_another() {
    let withdraw = Message::new(types::WITHDRAW, 2).fec(&prefix(1)).label(700).bytes();
    let release = Message::new(types::RELEASE, 2).fec(&prefix(1)).label(700).bytes();
    for cabinet in both() {
        let submit =
            |stored: Stored, msg: &[u8]| cabinet.submit(&mut stored.image(0), in_phase(phase::FAILED), msg).answer;
        assert_eq!(submit(holding(&[1], types::WITHDRAW, 2, 700), &withdraw), 6);
        assert_eq!(submit(holding(&[1], types::WITHDRAW, 2, 701), &withdraw), 0);
        assert_eq!(submit(holding(&[1], types::RELEASE, 3, 700), &withdraw), 0);
        assert_eq!(submit(holding(&[3], types::RELEASE, 3, 700), &release), 6);
        assert_eq!(submit(holding(&[1], types::WITHDRAW, 2, 700), &mapping(700).bytes()), 0);
    }
}

#[test]
fn writers() {
    for cabinet in both() {
        let send = |stored: &Stored, session, room: usize| {
            cabinet.send_next(&mut stored.image(0), session, false, &mut vec![0; room]).answer
        };
        let one = holding(&[1], types::MAPPING, 1, 700);
        let up = |value| Session::new(phase::UP_FT, value);
        assert_eq!(send(&one, up(2), 0), 1);
        assert_eq!(send(&one, up(1), 0), 8);
        assert_eq!(send(&one, up(0), 35), 9);
        assert_eq!(send(&one, up(0), 36), 0);
        for (published, length) in [(false, 42), (true, 50)] {
            let opening = Opening { published, ..Opening::default() };
            let open =
                |phase, room: usize| cabinet.open(&one.image(0), in_phase(phase), &opening, &mut vec![0; room]).answer;
            assert_eq!([open(phase::IDLE, 0), open(phase::FAILED, length - 1), open(phase::FAILED, length)], [1, 9, 0]);
        }
        let keepalive =
            |phase, room: usize| cabinet.keepalive(&one.image(0), in_phase(phase), 1, &mut vec![0; room]).answer;
        assert_eq!(
            [keepalive(phase::UP_PLAIN, 0), keepalive(phase::UP_FT, 15), keepalive(phase::UP_FT, 16)],
            [1, 9, 0]
        );
    }
}

#[test]
fn init_received() {
    let stored = Stored { keepalive_time: 30, max_pdu_length: 4096, ..holding(&[1], types::MAPPING, 1, 700) };
    let init = || Message::new(types::INITIALIZATION, 1);
    let assert_answer = |stored: &Stored, message: Message, answer: u32| {
        for cabinet in both() {
            let session = Session::new(phase::INIT_WAIT, 5_000);
            let outcome = cabinet.init_received(&mut stored.image(0), session, &message.bytes());
            assert_eq!(outcome.answer, answer, "{message:?}");
        }
    };
    assert_answer(&stored, Message::new(types::KEEPALIVE, 1).ack(9), 22);
    assert_answer(&stored, init().ft_session(true, 5).label(1 << 20), 22);
    assert_answer(&stored, init().ft_session(true, 5).ack(9), 23);
    assert_answer(&stored, init(), 23);
    assert_answer(&stored, init().parameters(31, 4096).ft_session(true, 5), 23);
    assert_answer(&stored, init().parameters(31, 4096).ft_session(true, 5).ack(9), 35);
    assert_answer(&stored, init().parameters(30, 4097).ft_session(true, 5).ack(1), 35);
    assert_answer(&stored, init().parameters(30, 4096).ft_session(true, 5).ack(9), 34);
    assert_answer(&stored, init().parameters(30, 4096).ft_session(true, 5).ack(1), 0);
    assert_answer(&stored, init().parameters(31, 4097).ft_session(false, 5).ack(9), 0);
    assert_answer(&stored, init().parameters(31, 4097).ack(9), 0);
    assert_answer(&Stored::idle(), init().parameters(31, 4097).ft_session(true, 5), 23);
    assert_answer(&Stored::idle(), init().parameters(31, 4097).ft_session(true, 5).ack(9), 0);
}
