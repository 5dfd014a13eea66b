//! A peer that leaves out messages: which numbers may come next, on the library and on the model.

use cabinet::{flags, further, phase, Cabinet, Next, Outcome, Session, PLACES};
use model::Model;
use trials::stored::{steps_after, word, Queued, Stored, NO_LABEL};
use trials::under_test::UnderTest;
use trials::wire::{prefix, types, Message};

const RESUMED: Session = Session::resumed(0);
const FRESH: Session = Session::new(phase::UP_FT, 0);

fn both() -> [&'static dyn Cabinet; 2] {
    [&UnderTest, &Model]
}

/// Secured numbers: none, the first, those from which 64 steps come to the end of the circle or over it.
const SECURED: [u32; 7] = [0, 1, 700, 0xFFFF_FFBE, 0xFFFF_FFBF, 0xFFFF_FFF0, 0xFFFF_FFFF];

fn kept(secured: u32) -> Stored {
    Stored { secured, kept: true, timeout: 5_000, ..Stored::idle() }
}

fn mapping(label: u32) -> Message {
    Message::new(types::MAPPING, 1).fec(&prefix(1)).label(label)
}

/// A Mapping comes with a number; the outcome, and what is stored afterwards.
fn received(cabinet: &dyn Cabinet, stored: &Stored, session: Session, number: u32) -> (Outcome, Stored) {
    let mut image = stored.image(0);
    let outcome = cabinet.receive(&mut image, session, &mapping(900).protection(number).bytes());
    (outcome, Stored::read(&image))
}

/// 02: "On a resumed connection .. accept a number 1 to 64 steps ahead of S. The test of the next number now says how
/// many were left out."
#[test]
fn on_a_resumed_connection_1_to_64_steps_ahead_are_taken() {
    for cabinet in both() {
        for secured in SECURED {
            for ahead in 1..=64 {
                let number = steps_after(secured, ahead);
                let left_out = ahead as u32 - 1;
                assert_eq!(cabinet.next_number(secured, number, true), Next { answer: 0, left_out });
                let (outcome, after) = received(cabinet, &kept(secured), RESUMED, number);
                let further = further::INDEX[0];
                let expected = Outcome { session: RESUMED, block0: 1, further, left_out, ..Outcome::default() };
                assert_eq!(outcome, expected, "{number} after {secured}");
                assert_eq!((after.secured, after.labels[0]), (number, word(900, 3)), "S moves to the number itself");
            }
        }
    }
}

/// A jump is refused as connection failed is: what the message bears is not taken, and S stays.
fn assert_out_of_turn(cabinet: &dyn Cabinet, secured: u32, session: Session, number: u32) {
    let next = cabinet.next_number(secured, number, session.is_resumed());
    assert_eq!(next, Next { answer: 20, left_out: 0 }, "{number} after {secured}");
    let (outcome, after) = received(cabinet, &kept(secured), session, number);
    let failed = Outcome { answer: 20, session: Session::new(phase::FAILED, 0), ..Outcome::default() };
    assert_eq!((outcome, after), (failed, kept(secured)), "{number} after {secured}");
}

/// 02: "20 is given only for numbers outside that range, or on an unresumed connection for any but the successor."
#[test]
fn all_other_numbers_are_out_of_turn() {
    for cabinet in both() {
        for secured in SECURED {
            for ahead in [65, 66, 70, 1 << 20, 1 << 31, (1 << 32) - 2] {
                let number = steps_after(secured, ahead);
                assert_out_of_turn(cabinet, secured, RESUMED, number);
                assert_out_of_turn(cabinet, secured, FRESH, number);
            }
            for ahead in 2..=64 {
                assert_out_of_turn(cabinet, secured, FRESH, steps_after(secured, ahead));
            }
            assert_eq!(cabinet.next_number(secured, steps_after(secured, 1), false), Next::default());
            let (outcome, _) = received(cabinet, &kept(secured), FRESH, steps_after(secured, 1));
            assert_eq!((outcome.answer, outcome.session, outcome.left_out), (0, FRESH, 0));
        }
        for secured in SECURED.into_iter().filter(|secured| *secured != 0) {
            assert_out_of_turn(cabinet, secured, RESUMED, secured);
            assert_out_of_turn(cabinet, secured, FRESH, secured);
        }
    }
}

/// All words in use, so that a Mapping of another label needs one more.
fn full(secured: u32) -> Stored {
    Stored { labels: (0..PLACES as u32).map(|place| word(16 + place, 3)).collect(), ..kept(secured) }
}

/// Zero is no number, and comes before what is said of the ACK, the labels and the turn; 20 comes after these, before
/// 21.
#[test]
fn the_answers_keep_their_places_in_the_order() {
    let mut unprotected = kept(9);
    unprotected.labels[0] = word(900, 6);
    for cabinet in both() {
        for session in [RESUMED, FRESH] {
            let answer = |stored: &Stored, message: Message| {
                cabinet.receive(&mut stored.image(0), session, &message.bytes()).answer
            };
            assert_eq!(cabinet.next_number(9, 0, session.is_resumed()), Next { answer: 30, left_out: 0 });
            assert_eq!(cabinet.next_number(0, 0, session.is_resumed()), Next { answer: 30, left_out: 0 });
            assert_eq!(answer(&unprotected, mapping(900).protection(0).ack(77)), 30);
            assert_eq!(answer(&unprotected, mapping(900).protection(99).ack(77)), 34);
            assert_eq!(answer(&unprotected, mapping(900).protection(99).ack(0)), 32);
            assert_eq!(answer(&full(9), mapping(900).protection(99)), 20);
            assert_eq!(answer(&full(9), mapping(900).protection(10)), 21);
        }
        assert_eq!(received(cabinet, &full(9), RESUMED, 9 + 64).0.answer, 21, "in turn, after 63 left out");
        assert_eq!(received(cabinet, &full(9), RESUMED, 9 + 65).0.answer, 20);
    }
}

/// What is not protected has no number: nothing is left out before it.
#[test]
fn messages_without_a_number_leave_out_none() {
    for cabinet in both() {
        let mut image = kept(9).image(0);
        let outcome = cabinet.receive(&mut image, RESUMED, &Message::new(types::KEEPALIVE, 1).ack(0).bytes());
        assert_eq!(outcome, Outcome { session: RESUMED, ..Outcome::default() });
        assert_eq!(Stored::read(&image).secured, 9);
    }
}

/// An acknowledgement beside a jump acts as any does.
#[test]
fn a_jump_with_an_acknowledgement() {
    let bytes = Message::new(types::ADDRESS, 1).bytes();
    let queue = vec![Queued { kind: 4, label: NO_LABEL, bytes }; 3];
    let stored = Stored { issued: 3, queue, ..kept(0xFFFF_FFFE) };
    for cabinet in both() {
        let mut image = stored.image(0);
        let message = Message::new(types::ADDRESS, 1).protection(5).ack(2).bytes();
        let outcome = cabinet.receive(&mut image, Session::resumed(3), &message);
        assert_eq!((outcome.answer, outcome.session, outcome.left_out), (0, Session::resumed(1), 5));
        let after = Stored::read(&image);
        assert_eq!((after.released, after.secured, after.queue.len()), (2, 5, 1));
    }
}

/// The bits of a session that a phase does not bear are not read, and written as 0.
#[test]
fn resumed_is_one_bit_of_a_session_that_is_up() {
    for cabinet in both() {
        let up = |flags| Session { flags, ..FRESH };
        for (given, borne) in [(0, 0), (1, 1), (2, 0), (3, 1), (u32::MAX, 1), (u32::MAX - 1, 0)] {
            let (outcome, _) = received(cabinet, &kept(9), up(given), 12);
            assert_eq!(outcome.answer, if borne == 1 { 0 } else { 20 }, "flags {given}");
            let sound = received(cabinet, &kept(9), up(given), 10).0;
            assert_eq!(sound.session, up(borne), "flags {given}");
            let refused = cabinet.send_next(&mut kept(9).image(0), up(given), false, &mut []);
            assert_eq!((refused.answer, refused.session), (8, up(given)), "as given where refused");
            for phase in [phase::FAILED, phase::INIT_WAIT] {
                let session = Session { phase, value: 5, flags: given };
                let address = Message::new(types::ADDRESS, 1).bytes();
                let outcome = cabinet.submit(&mut kept(9).image(0), session, &address);
                assert_eq!((outcome.answer, outcome.session.flags), (0, 0));
                let refused = cabinet.submit(&mut kept(9).image(0), session, &[]);
                assert_eq!((refused.answer, refused.session), (3, session));
            }
        }
    }
}

/// Resumed: both ends had kept their state, so both Inits have R set, and the Init is answered 0.
#[test]
fn a_connection_is_resumed_where_both_inits_have_r_set() {
    let stored = Stored { keepalive_time: 30, max_pdu_length: 4096, ..kept(9) };
    let init = |reconnect| Message::new(types::INITIALIZATION, 1).parameters(30, 4096).ft_session(reconnect, 5).ack(0);
    let waiting = Session { phase: phase::INIT_WAIT, value: 5_000, flags: flags::RESUMED };
    for cabinet in both() {
        let up = |stored: &Stored, message: Message| {
            let outcome = cabinet.init_received(&mut stored.image(0), waiting, &message.bytes());
            (outcome.answer, outcome.session)
        };
        assert_eq!(up(&stored, init(true)), (0, RESUMED));
        assert_eq!(up(&stored, init(false)), (0, FRESH));
        assert_eq!(up(&Stored::idle(), init(true)), (0, FRESH));
        assert_eq!(up(&Stored::idle(), init(false)), (0, FRESH));
        let plain = Message::new(types::INITIALIZATION, 1).parameters(30, 4096);
        assert_eq!(up(&stored, plain), (0, Session::new(phase::UP_PLAIN, 0)));
    }
}
