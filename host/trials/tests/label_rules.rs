//! The label list's rules, one by one as the paper has them, on the library and on the model.

use cabinet::{phase, Cabinet, Outcome, Session};
use model::Model;
use trials::entries::entry_of;
use trials::stored::{word, Queued, Stored, ENTRY_PLACES};
use trials::under_test::UnderTest;
use trials::wire::{prefix, types, Message, WILDCARD};

const LABEL: u32 = 700;
const FREE: u32 = 0;
const GIVEN: u32 = 1;
const WITHDRAWING: u32 = 2;
const USING: u32 = 3;
const ASKED_BACK: u32 = 4;
const RELEASING: u32 = 5;
const UNPROTECTED: u32 = 6;
const ACKED: u32 = 8;
const RELEASED: u32 = 9;
/// The codes of labels that we gave.
const OURS: [u32; 4] = [GIVEN, WITHDRAWING, ACKED, RELEASED];

fn both() -> [&'static dyn Cabinet; 2] {
    [&UnderTest, &Model]
}

/// A kept state that lists the label with a code, beside the same label on the other side; both of the FEC that the
/// messages have.
fn listing(code: u32) -> Stored {
    let entries = [entry_of(&prefix(1)); ENTRY_PLACES];
    let mut stored = Stored { secured: 10, kept: true, entries, ..Stored::idle() };
    stored.labels[3] = if code == FREE { 0 } else { word(LABEL, code) };
    stored.labels[0] = word(LABEL, if OURS.contains(&code) { USING } else { GIVEN });
    stored
}

/// The label's code at the place where `listing` puts it, or where a new word goes; the other side must be untouched.
fn code_after(before: &Stored, image: &[u8]) -> u32 {
    let after = Stored::read(image);
    assert_eq!(after.labels[0], before.labels[0], "the other side");
    let place = if before.labels[3] == 0 { 1 } else { 3 };
    after.labels[place] >> 20
}

fn about(message_type: u16) -> Message {
    Message::new(message_type, 1).fec(&prefix(1)).label(LABEL)
}

/// An answer and the code afterwards.
type Expected = (u32, u32);

fn assert_each(what: &str, table: &[(u32, Expected)], run: impl Fn(&dyn Cabinet, u32) -> Expected) {
    for cabinet in both() {
        for (code, expected) in table {
            assert_eq!(run(cabinet, *code), *expected, "{what}, code {code}");
        }
    }
}

fn submitted(cabinet: &dyn Cabinet, stored: Stored, message_type: u16) -> Expected {
    let mut image = stored.image(0);
    let session = Session::new(phase::FAILED, 0);
    let outcome = cabinet.submit(&mut image, session, &about(message_type).bytes());
    (outcome.answer, code_after(&stored, &image))
}

#[test]
fn accepted_for_sending() {
    let withdrawn = [WITHDRAWING, ACKED, RELEASED].map(|code| (code, (6, code)));
    let mapping = [(FREE, (0, GIVEN)), (GIVEN, (0, GIVEN))];
    // A label that is absent on our side stands on theirs; the other way round for a Release.
    let absent = |code| if code == FREE { their_side_only() } else { listing(code) };
    assert_each("Mapping", &mapping, |cabinet, code| submitted(cabinet, absent(code), types::MAPPING));
    assert_each("Mapping", &withdrawn, |cabinet, code| submitted(cabinet, listing(code), types::MAPPING));
    let withdraw = [(FREE, (6, FREE)), (GIVEN, (0, WITHDRAWING))];
    assert_each("Withdraw", &withdraw, |cabinet, code| submitted(cabinet, absent(code), types::WITHDRAW));
    assert_each("Withdraw", &withdrawn, |cabinet, code| submitted(cabinet, listing(code), types::WITHDRAW));
    let release = [
        (FREE, (6, FREE)),
        (USING, (0, RELEASING)),
        (ASKED_BACK, (0, FREE)),
        (RELEASING, (6, RELEASING)),
        (UNPROTECTED, (6, UNPROTECTED)),
    ];
    assert_each("Release", &release, |cabinet, code| submitted(cabinet, listing(code), types::RELEASE));
}

/// The label listed on the peer's side alone.
fn their_side_only() -> Stored {
    let mut stored = listing(FREE);
    stored.labels[0] = word(LABEL, USING);
    stored
}

/// A held message of the type is acknowledged.
fn acknowledged(cabinet: &dyn Cabinet, code: u32, message_type: u16, kind: u8) -> Expected {
    let queue = vec![Queued { kind, label: LABEL, bytes: about(message_type).bytes() }];
    let stored = Stored { issued: 1, queue, ..listing(code) };
    let mut image = stored.image(0);
    let session = Session::new(phase::UP_FT, 1);
    let outcome = cabinet.receive(&mut image, session, &Message::new(types::KEEPALIVE, 1).ack(1).bytes());
    assert_eq!(outcome.session, Session::new(phase::UP_FT, 0));
    (outcome.answer, code_after(&stored, &image))
}

#[test]
fn released_by_ack() {
    let mapping = OURS.map(|code| (code, (0, code)));
    assert_each("Mapping", &mapping, |cabinet, code| acknowledged(cabinet, code, types::MAPPING, 1));
    // 02, ticket 4: "Free a withdrawn label at the second of Release and ACK."
    let withdraw = [(GIVEN, (0, GIVEN)), (WITHDRAWING, (0, ACKED)), (ACKED, (0, ACKED)), (RELEASED, (0, FREE))];
    assert_each("Withdraw", &withdraw, |cabinet, code| acknowledged(cabinet, code, types::WITHDRAW, 2));
    let stays = [USING, ASKED_BACK, UNPROTECTED].map(|code| (code, (0, code)));
    assert_each("Release", &stays, |cabinet, code| acknowledged(cabinet, code, types::RELEASE, 3));
    let release = [(RELEASING, (0, FREE))];
    assert_each("Release", &release, |cabinet, code| acknowledged(cabinet, code, types::RELEASE, 3));
}

fn receive(cabinet: &dyn Cabinet, stored: &Stored, message: Message, protected: bool) -> (Outcome, Vec<u8>) {
    let message = if protected { message.protection(11) } else { message };
    let mut image = stored.image(0);
    let session = Session::new(phase::UP_FT, 0);
    let outcome = cabinet.receive(&mut image, session, &message.bytes());
    (outcome, image)
}

/// A message about the label is received; where the session ends, everything is released.
fn received(cabinet: &dyn Cabinet, stored: Stored, message: Message, protected: bool) -> Expected {
    let (outcome, image) = receive(cabinet, &stored, message, protected);
    if outcome.answer >= 30 {
        assert_eq!(image[..512], Stored::idle().image(0)[..512]);
        return (outcome.answer, FREE);
    }
    assert_eq!(Stored::read(&image).secured, if protected { 11 } else { 10 });
    (outcome.answer, code_after(&stored, &image))
}

/// The ACK of a held Withdraw and a Release of its label in one message: the ACK acts first, and 33 judges the label as
/// it leaves it.
#[test]
fn ack_and_release_in_one_message() {
    for cabinet in both() {
        for (code, protected, expected) in
            [(WITHDRAWING, true, (0, FREE)), (WITHDRAWING, false, (33, FREE)), (RELEASED, false, (0, FREE))]
        {
            let queue = vec![Queued { kind: 2, label: LABEL, bytes: about(types::WITHDRAW).bytes() }];
            let stored = Stored { issued: 1, queue, ..listing(code) };
            let message = about(types::RELEASE).ack(1);
            assert_eq!(received(cabinet, stored, message, protected), expected, "code {code}, protected {protected}");
        }
    }
}

#[test]
fn mapping_received() {
    let protected = [
        (FREE, (0, USING)),
        (USING, (0, USING)),
        (ASKED_BACK, (0, ASKED_BACK)),
        (RELEASING, (0, USING)),
        (UNPROTECTED, (32, FREE)),
    ];
    assert_each("protected", &protected, |c, code| received(c, listing(code), about(types::MAPPING), true));
    let bare = [
        (FREE, (0, UNPROTECTED)),
        (USING, (33, FREE)),
        (ASKED_BACK, (33, FREE)),
        (RELEASING, (33, FREE)),
        (UNPROTECTED, (0, UNPROTECTED)),
    ];
    assert_each("unprotected", &bare, |c, code| received(c, listing(code), about(types::MAPPING), false));
}

#[test]
fn withdraw_received() {
    let protected = [
        (FREE, (0, FREE)),
        (USING, (0, ASKED_BACK)),
        (ASKED_BACK, (0, ASKED_BACK)),
        (RELEASING, (0, RELEASING)),
        (UNPROTECTED, (32, FREE)),
    ];
    assert_each("protected", &protected, |c, code| received(c, listing(code), about(types::WITHDRAW), true));
    let bare = [
        (FREE, (0, FREE)),
        (USING, (33, FREE)),
        (ASKED_BACK, (33, FREE)),
        (RELEASING, (33, FREE)),
        (UNPROTECTED, (0, FREE)),
    ];
    assert_each("unprotected", &bare, |c, code| received(c, listing(code), about(types::WITHDRAW), false));
}

#[test]
fn release_received() {
    let absent = |code| if code == FREE { their_side_only() } else { listing(code) };
    let protected = [
        (FREE, (0, FREE)),
        (GIVEN, (0, FREE)),
        (WITHDRAWING, (0, RELEASED)),
        (ACKED, (0, FREE)),
        (RELEASED, (0, RELEASED)),
    ];
    assert_each("protected", &protected, |c, code| received(c, absent(code), about(types::RELEASE), true));
    assert_each("unprotected", &[(FREE, (0, FREE))], |c, code| received(c, absent(code), about(types::RELEASE), false));
    let bare = OURS.map(|code| (code, (33, FREE)));
    assert_each("unprotected", &bare, |c, code| received(c, listing(code), about(types::RELEASE), false));
}

/// A state that lists one label for each code given.
fn listing_all(codes: &[u32]) -> Stored {
    let mut stored = listing(FREE);
    stored.labels.fill(0);
    for (place, code) in codes.iter().enumerate().filter(|(_, code)| **code != FREE) {
        stored.labels[place] = word(LABEL + place as u32, *code);
    }
    stored
}

/// The codes after a message without a label.
fn codes_after(message_type: u16, fec: &[u8], codes: &[u32], protected: bool) -> (u32, Vec<u32>) {
    let results = both().map(|cabinet| {
        let message = Message::new(message_type, 1).fec(fec);
        let (outcome, image) = receive(cabinet, &listing_all(codes), message, protected);
        let after = Stored::read(&image).labels.iter().take(codes.len()).map(|word| word >> 20).collect();
        (outcome.answer, after)
    });
    assert_eq!(results[0], results[1]);
    let [result, _] = results;
    result
}

#[test]
fn wildcards_act_on_every_label() {
    let all = [1, 2, 3, 4, 5, 6, 8, 9];
    assert_eq!(codes_after(types::WITHDRAW, WILDCARD, &all, true), (0, vec![1, 2, 4, 4, 5, 0, 8, 9]));
    assert_eq!(codes_after(types::RELEASE, WILDCARD, &all, true), (0, vec![0, 9, 3, 4, 5, 6, 0, 9]));
    assert_eq!(codes_after(types::WITHDRAW, WILDCARD, &[1, 2, 6, 6, 8, 9], false), (0, vec![1, 2, 0, 0, 8, 9]));
    assert_eq!(codes_after(types::RELEASE, WILDCARD, &[3, 4, 5, 6], false), (0, vec![3, 4, 5, 6]));
    for code in [USING, ASKED_BACK, RELEASING] {
        assert_eq!(codes_after(types::WITHDRAW, WILDCARD, &[6, code], false).0, 33);
    }
    for code in OURS {
        assert_eq!(codes_after(types::RELEASE, WILDCARD, &[6, code], false).0, 33);
    }
}

/// A prefix that no label has among them.
#[test]
fn another_fec_without_a_label_changes_nothing() {
    let all = [1, 2, 3, 4, 5, 6, 8, 9];
    for fec in [&prefix(2)[..], &[], &[1, 1], &[2]] {
        for message_type in [types::WITHDRAW, types::RELEASE] {
            for protected in [true, false] {
                assert_eq!(codes_after(message_type, fec, &all, protected), (0, all.to_vec()), "{fec:?}");
            }
        }
    }
}

#[test]
fn labels_below_16_are_passed_on_and_never_listed() {
    for cabinet in both() {
        for (label, protected) in [(0, true), (15, true), (15, false)] {
            let stored = listing_all(&[]);
            let message = Message::new(types::MAPPING, 1).fec(&prefix(1)).label(label);
            let (outcome, image) = receive(cabinet, &stored, message, protected);
            assert_eq!(outcome.answer, 0);
            assert_eq!(Stored::read(&image).labels, stored.labels);
        }
    }
}

#[test]
fn the_first_free_word_is_taken() {
    for cabinet in both() {
        let stored = listing_all(&[3, 3, 0, 3, 0]);
        let message = Message::new(types::MAPPING, 1).fec(&prefix(1)).label(16);
        let (_, image) = receive(cabinet, &stored, message, true);
        assert_eq!(Stored::read(&image).labels[2], word(16, USING));
    }
}
