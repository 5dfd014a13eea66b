//! What of ours is left out where messages are sent again, case by case as 02 has it, on the library and on the model.

mod pair;

use cabinet::{phase, Cabinet, Outcome, Session};
use model::Model;
use pair::{connect, End};
use trials::calls::{Call, Returned};
use trials::differential::Run;
use trials::stored::{steps_after, Queued, Stored, NO_LABEL, REQUEST, SLOTS};
use trials::under_test::UnderTest;
use trials::wire::{prefix, protection_number, types, Message};

fn both() -> [&'static dyn Cabinet; 2] {
    [&UnderTest, &Model]
}

fn request(id: u32) -> Vec<u8> {
    Message::new(types::REQUEST, id).fec(&prefix(1)).bytes()
}

/// An Abort; its own message ID is another than any Request's.
fn abort(id: u32) -> Vec<u8> {
    Message::new(types::ABORT, 90).fec(&prefix(1)).request_id(id).bytes()
}

fn address() -> Vec<u8> {
    Message::new(types::ADDRESS, 91).bytes()
}

/// A kept state that holds these messages, the first so many with numbers.
fn holding(messages: &[Vec<u8>], numbered: u64) -> Stored {
    let kind = |msg: &[u8]| match msg[1] {
        1 => 7,
        4 => 8,
        _ => 4,
    };
    let queued = |msg: &Vec<u8>| Queued { kind: kind(msg), label: NO_LABEL, bytes: msg.clone() };
    let queue = messages.iter().map(queued).collect();
    Stored { issued: numbered as u32, kept: true, timeout: 5_000, queue, ..Stored::idle() }
}

/// The Request is lost with the connection, its Abort is queued during the break: neither it nor its number comes again.
#[test]
fn a_request_then_a_break_then_its_abort_then_resumed() {
    for cabinet in both() {
        let [mut ours, mut peers] = [End::fresh(cabinet), End::fresh(cabinet)];
        connect(&mut ours, &mut peers, false);
        ours.submit(&request(5), 0);
        ours.expect_sent(&request(5), 1, 0);
        ours.fail();
        peers.fail();
        ours.submit(&abort(5), 0);
        ours.submit(&address(), 0);
        connect(&mut ours, &mut peers, true);
        ours.expect_sent(&abort(5), 2, 1);
        peers.receive(&ours.written, 1);
        ours.expect_sent(&address(), 3, 0);
        peers.receive(&ours.written, 0);
        ours.expect_nothing_unsent();
        assert_eq!((ours.stored().queue.len(), peers.stored().secured), (3, 3), "it keeps its slot until the ACK");
        ours.acknowledged(3);
        assert_eq!((ours.stored().queue.len(), ours.session), (0, Session::resumed(0)));
    }
}

/// On a connection that is not resumed every message with a number was sent on it, so nothing is left out.
#[test]
fn on_a_fresh_connection_nothing_is_left_out() {
    for cabinet in both() {
        let [mut ours, mut peers] = [End::fresh(cabinet), End::fresh(cabinet)];
        connect(&mut ours, &mut peers, false);
        ours.submit(&request(5), 0);
        ours.submit(&abort(5), 0);
        ours.expect_sent(&request(5), 1, 0);
        peers.receive(&ours.written, 0);
        ours.submit(&request(5), 0);
        ours.submit(&abort(5), 0);
        for (msg, number) in [(abort(5), 2), (request(5), 3), (abort(5), 4)] {
            ours.expect_sent(&msg, number, 0);
            peers.receive(&ours.written, 0);
        }
        ours.expect_nothing_unsent();
    }
}

/// "Ours is judged when Send comes to it": an Abort that is queued in mid re-issue counts for what is still to be sent.
#[test]
fn an_abort_queued_in_mid_reissue() {
    for cabinet in both() {
        let stored = holding(&[address(), request(5), request(6), address()], 4);
        let mut ours = End::new(cabinet, &with_open(stored, &[5, 6]), Session::resumed(0));
        ours.expect_sent(&address(), 1, 0);
        ours.submit(&abort(5), 0);
        ours.expect_sent(&request(6), 3, 1);
        ours.submit(&abort(6), 0);
        for (msg, number) in [(address(), 4), (abort(5), 5), (abort(6), 6)] {
            ours.expect_sent(&msg, number, 0);
        }
        ours.expect_nothing_unsent();
    }
}

/// Opens these Requests in the first words.
fn with_open(mut stored: Stored, ids: &[u32]) -> Stored {
    for (place, id) in ids.iter().enumerate() {
        (stored.labels[place], stored.ids[place]) = (REQUEST, *id);
    }
    stored
}

/// What is sent, from the first on, of a store that holds these, so many of them with numbers: numbers and left out.
fn sent(messages: &[Vec<u8>], numbered: u64) -> Vec<(u32, u32)> {
    let of = |cabinet| {
        let mut ours = End::new(cabinet, &holding(messages, numbered), Session::resumed(0));
        let sends = std::iter::from_fn(|| {
            let outcome = ours.send_into(500);
            (outcome.answer == 0).then(|| (protection_number(&ours.written).unwrap(), outcome.left_out))
        });
        sends.collect::<Vec<_>>()
    };
    let [library, model] = both().map(of);
    assert_eq!(library, model);
    library
}

#[test]
fn which_messages_are_left_out() {
    assert_eq!(sent(&[request(5), request(5), abort(5)], 3), [(3, 2)], "two of one ID, one Abort behind both");
    assert_eq!(sent(&[request(5), abort(5), request(5), abort(5)], 4), [(2, 1), (4, 1)]);
    assert_eq!(sent(&[request(5), abort(5), request(5)], 3), [(2, 1), (3, 0)], "the second has none behind it");
    assert_eq!(sent(&[abort(5), request(5)], 2), [(1, 0), (2, 0)], "an Abort before it");
    assert_eq!(sent(&[request(5), abort(6)], 2), [(1, 0), (2, 0)], "an Abort of another");
    assert_eq!(sent(&[request(90), abort(5)], 2), [(1, 0), (2, 0)], "the Abort's own ID is not that which it names");
    assert_eq!(sent(&[request(0), abort(0)], 2), [(2, 1)], "ID 0 is an ID");
    assert_eq!(sent(&[request(5), abort(5)], 0), [(1, 0), (2, 0)], "pended, both");
    assert_eq!(sent(&[request(5), abort(5)], 1), [(2, 1)], "the Abort may be pended");
    assert_eq!(sent(&[address(), request(5), abort(5)], 1), [(1, 0), (2, 0), (3, 0)], "the Request is pended");
    assert_eq!(sent(&[request(5), request(6), abort(5)], 1), [(2, 1), (3, 0)], "so is the one after it");
    assert_eq!(sent(&[request(5), request(6), abort(6), abort(5)], 4), [(3, 2), (4, 0)], "in the other order");
    assert_eq!(sent(&[request(5), address(), abort(5)], 3), [(2, 1), (3, 0)], "others between them");
}

/// Every store of up to four messages, two Requests, their Aborts and another, with every count of numbers and of sent.
#[test]
fn every_small_store() {
    let alphabet = [request(5), request(6), abort(5), abort(6), address()];
    let mut run = Run::new(&Model, &UnderTest, 1);
    for held in 0..=4 {
        for spelled in 0..alphabet.len().pow(held) {
            let letter = |place: u32| alphabet[spelled / alphabet.len().pow(place) % alphabet.len()].clone();
            let messages: Vec<Vec<u8>> = (0..held).map(letter).collect();
            for numbered in 0..=u64::from(held) {
                expect_by_the_paper(&mut run, &holding(&messages, numbered));
            }
        }
    }
    println!("{}", run.coverage);
}

/// Send next with every count sent, resumed and not.
fn expect_by_the_paper(run: &mut Run, stored: &Stored) {
    let image = stored.image(0);
    for sent in 0..=stored.numbered() as u32 {
        for session in [Session::resumed(sent), Session::new(phase::UP_FT, sent)] {
            let seen = run.call(&image, &Call::SendNext { session, ack: false, room: 500 }).unwrap();
            let Returned::Outcome(outcome) = seen.returned else { panic!("send next returns an outcome") };
            let due = stored.left_out_from(sent as usize) as u32;
            let (answer, value) = if sent as usize == stored.queue.len() { (8, sent) } else { (0, sent + due + 1) };
            assert_eq!((outcome.answer, outcome.left_out, outcome.session.value), (answer, due, value), "{stored:?}");
        }
    }
}

/// A Request that was sent on this connection before its Abort was queued is not left out, and one that was passed over
/// stays so on every connection.
#[test]
fn left_out_is_for_good() {
    for cabinet in both() {
        let messages = [request(5), request(6), abort(5), abort(6)];
        let mut ours = End::new(cabinet, &holding(&messages, 4), Session::resumed(1));
        ours.expect_sent(&abort(5), 3, 1);
        ours.fail();
        ours.session = Session::resumed(0);
        ours.expect_sent(&abort(5), 3, 2);
        ours.session = Session::resumed(0);
        ours.expect_sent(&abort(5), 3, 2);
        ours.expect_sent(&abort(6), 4, 0);
        ours.expect_nothing_unsent();
    }
}

/// "Our rule does not ask whether UpFT is resumed."
#[test]
fn the_rule_does_not_ask_whether_the_connection_is_resumed() {
    for cabinet in both() {
        for session in [Session::resumed(0), Session::new(phase::UP_FT, 0)] {
            let mut ours = End::new(cabinet, &holding(&[request(5), abort(5)], 2), session);
            ours.expect_sent(&abort(5), 2, 1);
            assert_eq!(ours.session, Session { value: 2, ..session });
        }
    }
}

/// "9 changes nothing": neither the count nor the image; exact room is enough, and the number is given with the message.
#[test]
fn too_little_room_passes_over_nothing() {
    for cabinet in both() {
        let stored = holding(&[request(5), abort(5)], 1);
        let mut ours = End::new(cabinet, &stored, Session::resumed(0));
        let room = abort(5).len() + 8;
        for too_little in [0, 1, room - 1] {
            let refused = ours.send_into(too_little);
            assert_eq!(refused, Outcome { answer: 9, session: Session::resumed(0), ..Outcome::default() });
            assert_eq!(ours.stored(), stored);
        }
        let done = ours.send_into(room);
        assert_eq!((done.answer, done.left_out, done.block0, done.session.value), (0, 1, 1, 2));
        assert_eq!(ours.stored().issued, 2);
    }
}

/// "These keep their slots until an ACK passes them, and the bound of 64 and the refusal for room count them."
#[test]
fn at_the_head_of_a_full_ring_it_takes_room_until_the_ack() {
    for cabinet in both() {
        let mut messages = vec![address(); SLOTS];
        (messages[0], messages[1]) = (request(5), abort(5));
        let mut ours = End::new(cabinet, &holding(&messages, 2), Session::resumed(0));
        ours.submit(&address(), 7);
        ours.expect_sent(&abort(5), 2, 1);
        ours.submit(&address(), 7);
        assert_eq!(ours.stored().queue.len(), SLOTS);
        ours.acknowledged(2);
        assert_eq!((ours.stored().queue.len(), ours.session.value), (SLOTS - 2, 0));
        ours.submit(&address(), 0);
        ours.submit(&address(), 0);
        ours.submit(&address(), 7);
    }
}

/// The numbers of those left out, and of the message behind them, go over the end of the circle.
#[test]
fn the_wrap_inside_a_jump() {
    for cabinet in both() {
        for before in 0..=4 {
            let released = 0xFFFF_FFFF - before;
            let messages = [request(5), request(6), request(7), abort(7), abort(6), abort(5)];
            let stored = Stored { released, issued: steps_after(released, 5), ..holding(&messages, 0) };
            let mut ours = End::new(cabinet, &stored, Session::resumed(0));
            let peer = Stored { secured: released, ..holding(&[], 0) };
            let mut peers = End::new(cabinet, &peer, Session::resumed(0));
            for (msg, ahead, left_out) in [(abort(7), 4, 3), (abort(6), 5, 0), (abort(5), 6, 0)] {
                ours.expect_sent(&msg, steps_after(released, ahead), left_out);
                peers.receive(&ours.written, left_out);
                assert_eq!(peers.stored().secured, steps_after(released, ahead));
            }
            ours.expect_nothing_unsent();
            ours.acknowledged(steps_after(released, 6));
            assert_eq!((ours.stored().queue.len(), ours.session.value), (0, 0));
        }
    }
}

/// 63 left out are as many as a full ring can have, and the peer takes the message behind them.
#[test]
fn as_many_as_can_be_left_out_are_taken_by_the_peer() {
    for cabinet in both() {
        let mut messages = vec![request(5); SLOTS];
        messages[SLOTS - 1] = abort(5);
        let mut ours = End::new(cabinet, &holding(&messages, 64), Session::resumed(0));
        let mut peers = End::new(cabinet, &holding(&[], 0), Session::resumed(0));
        ours.expect_sent(&abort(5), 64, 63);
        peers.receive(&ours.written, 63);
        assert_eq!(peers.stored().secured, 64);
        ours.expect_nothing_unsent();
    }
}
