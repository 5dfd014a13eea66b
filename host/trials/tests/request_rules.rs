//! The rules for Requests, one by one as 02 has them, on the library and on the model.

use cabinet::{phase, Cabinet, Outcome, Session};
use model::Model;
use trials::entries::entry_of;
use trials::stored::{word, Queued, Stored, ENTRY_PLACES, NO_LABEL, REQUEST, STOPPED, STOPPING};
use trials::under_test::UnderTest;
use trials::wire::{prefix, types, Message, NO_RESOURCES, RESOURCES_AVAILABLE, WILDCARD};

const UP: Session = Session::new(phase::UP_FT, 0);
const LABEL: u32 = 700;

fn both() -> [&'static dyn Cabinet; 2] {
    [&UnderTest, &Model]
}

/// A kept state with open Requests 40 and 0 at places 2 and 4, a free word before, between and after them, and the ID
/// of a Request that is over beside the last. The entries are all of the FEC that the Mappings have.
fn asking() -> Stored {
    let entries = [entry_of(&prefix(1)); ENTRY_PLACES];
    let mut stored = Stored { secured: 10, kept: true, timeout: 5_000, entries, ..Stored::idle() };
    stored.labels[0] = word(LABEL, 1);
    (stored.labels[2], stored.ids[2]) = (REQUEST, 40);
    (stored.labels[4], stored.ids[4]) = (REQUEST, 0);
    stored.ids[5] = 41;
    stored
}

/// The same state with other words and IDs at some places.
fn with(places: &[(usize, u32, u32)]) -> Stored {
    let mut stored = asking();
    for (place, word, id) in places {
        (stored.labels[*place], stored.ids[*place]) = (*word, *id);
    }
    stored
}

fn mapping(label: u32) -> Message {
    Message::new(types::MAPPING, 1).fec(&prefix(1)).label(label)
}

fn notification(status: u32, id: u32) -> Message {
    Message::new(types::NOTIFICATION, 1).status_of(status, id)
}

fn submit(cabinet: &dyn Cabinet, stored: &Stored, message: Message) -> (Outcome, Stored) {
    let mut image = stored.image(0);
    let outcome = cabinet.submit(&mut image, UP, &message.bytes());
    (outcome, Stored::read(&image))
}

/// A message is received with the number that is due, or without one; the label words and marks afterwards.
fn received(stored: &Stored, message: Message, protected: bool) -> Stored {
    let message = if protected { message.protection(11) } else { message };
    let results = both().map(|cabinet| {
        let mut image = stored.image(0);
        let outcome = cabinet.receive(&mut image, UP, &message.bytes());
        assert_eq!((outcome.answer, outcome.session, outcome.further), (0, UP, 0), "{message:?}");
        Stored::read(&image)
    });
    assert_eq!(results[0], results[1]);
    let [result, _] = results;
    assert_eq!(result.ids, stored.ids, "IDs stay");
    result
}

#[test]
fn a_request_takes_the_first_free_word() {
    for cabinet in both() {
        let (outcome, after) = submit(cabinet, &asking(), Message::new(types::REQUEST, 41).fec(WILDCARD));
        assert_eq!((outcome.answer, outcome.slot, outcome.further, outcome.block0), (0, 1, 1, 1));
        assert_eq!((after.labels[1], after.ids[1]), (REQUEST, 41));
        assert_eq!(after.open_requests(), [41, 40, 0]);
        let held = &after.queue[0];
        assert_eq!((held.kind, held.label), (7, NO_LABEL));
    }
}

#[test]
fn an_abort_frees_its_requests_word() {
    for cabinet in both() {
        let abort = |id| Message::new(types::ABORT, 9).fec(&prefix(1)).request_id(id);
        for (id, place) in [(40, 2), (0, 4)] {
            let (outcome, after) = submit(cabinet, &asking(), abort(id));
            assert_eq!((outcome.answer, outcome.further), (0, 0));
            assert_eq!((after.labels[place], after.ids), (0, asking().ids));
            assert_eq!((after.queue[0].kind, after.queue[0].label), (8, NO_LABEL));
            let again = Message::new(types::REQUEST, id).fec(&prefix(1));
            assert_eq!(submit(cabinet, &after, again).0.answer, 0, "asked again while both are held");
        }
    }
}

#[test]
fn of_119_requests_taken_the_120th_is_refused() {
    for cabinet in both() {
        let mut stored = Stored { kept: true, ..Stored::idle() };
        for id in 0..119 {
            let (outcome, mut after) = submit(cabinet, &stored, Message::new(types::REQUEST, id).fec(&prefix(1)));
            assert_eq!((outcome.answer, outcome.further), (0, u32::from(id != 0)));
            after.queue.clear();
            stored = after;
        }
        assert_eq!(submit(cabinet, &stored, Message::new(types::REQUEST, 119).fec(&prefix(1))).0.answer, 13);
        assert_eq!(submit(cabinet, &stored, mapping(LABEL)).0.answer, 13);
    }
}

#[test]
fn a_mapping_takes_the_word_of_the_request_that_it_names() {
    for (protected, code) in [(true, 3), (false, 6)] {
        for (id, place) in [(40, 2), (0, 4)] {
            let after = received(&asking(), mapping(LABEL).request_id(id), protected);
            assert_eq!(after.labels[place], word(LABEL, code));
            assert_eq!((after.labels[0], after.labels[1]), (word(LABEL, 1), 0), "our own label is another");
        }
    }
}

#[test]
fn a_mapping_of_a_label_that_has_a_word_frees_the_requests() {
    for (before, after) in [(3, 3), (4, 4), (5, 3)] {
        let stored = with(&[(7, word(LABEL, before), 0)]);
        let stored = received(&stored, mapping(LABEL).request_id(40), true);
        assert_eq!((stored.labels[2], stored.labels[7]), (0, word(LABEL, after)));
    }
    let stored = with(&[(7, word(LABEL, 6), 0)]);
    let stored = received(&stored, mapping(LABEL).request_id(40), false);
    assert_eq!((stored.labels[2], stored.labels[7]), (0, word(LABEL, 6)));
    for label in [0, 15] {
        let stored = received(&asking(), mapping(label).request_id(40), true);
        assert_eq!((stored.labels[2], stored.open_requests()), (0, vec![0]));
    }
}

#[test]
fn a_mapping_that_names_no_open_request_takes_the_first_free_word() {
    for id in [Some(41), Some(99), None] {
        let message = id.iter().fold(mapping(LABEL), |message, id| message.request_id(*id));
        let after = received(&asking(), message, true);
        assert_eq!((after.labels[1], after.open_requests()), (word(LABEL, 3), vec![40, 0]));
    }
}

#[test]
fn a_mapping_in_a_full_list_needs_no_other_word_than_its_requests() {
    let mut full = asking();
    for (place, word) in full.labels.iter_mut().enumerate().filter(|(_, word)| **word == 0) {
        *word = trials::stored::word(1_000 + place as u32, 3);
    }
    assert_eq!(received(&full, mapping(LABEL).request_id(0), true).labels[4], word(LABEL, 3));
    for cabinet in both() {
        let other = mapping(LABEL).request_id(41).protection(11).bytes();
        assert_eq!(cabinet.receive(&mut full.image(0), UP, &other).answer, 21);
    }
}

#[test]
fn a_notification_ends_the_request_that_its_status_names() {
    for status in [0x0D, 0x4000_000D, NO_RESOURCES, 0] {
        for protected in [true, false] {
            let after = received(&asking(), notification(status, 40), protected);
            assert_eq!((after.labels[2], after.open_requests()), (0, vec![0]));
        }
    }
    assert_eq!(received(&asking(), notification(RESOURCES_AVAILABLE, 40), true).open_requests(), [0]);
    assert_eq!(received(&asking(), notification(0x0D, 41), true).open_requests(), [40, 0]);
    assert_eq!(received(&asking(), Message::new(types::NOTIFICATION, 1), true).open_requests(), [40, 0]);
}

/// Other messages end none, whatever they name; nor do breaks, ACKs and Withdraws and Releases of every label.
#[test]
fn nothing_else_ends_a_request() {
    let others = [types::KEEPALIVE, types::ADDRESS, types::REQUEST, types::WITHDRAW, types::RELEASE, types::ABORT];
    for message_type in others {
        let message = Message::new(message_type, 40).fec(WILDCARD).request_id(40).status_of(0x0D, 40);
        assert_eq!(received(&asking(), message, true).open_requests(), [40, 0]);
    }
    let beside = mapping(LABEL).status_of(0x0D, 40);
    assert_eq!(received(&asking(), beside, true).open_requests(), [40, 0]);
    assert_eq!(received(&asking(), notification(0x0D, 99).request_id(40), true).open_requests(), [40, 0]);
    // Code 7 has label part 0, and is neither that label nor one of those that a wildcard touches.
    let only = with(&[(0, 0, 0)]);
    for message_type in [types::WITHDRAW, types::RELEASE] {
        for message in
            [Message::new(message_type, 1).fec(WILDCARD), Message::new(message_type, 1).fec(&prefix(1)).label(0)]
        {
            assert_eq!(received(&only, message, false).open_requests(), [40, 0]);
        }
    }
    assert_eq!(received(&only, mapping(0), true).labels, only.labels);
    let bytes = Message::new(types::REQUEST, 40).fec(&prefix(1)).bytes();
    let held = Stored { issued: 1, queue: vec![Queued { kind: 7, label: NO_LABEL, bytes }], ..asking() };
    let acknowledged = received(&held, Message::new(types::KEEPALIVE, 1).ack(1), false);
    assert_eq!((acknowledged.queue.len(), acknowledged.open_requests()), (0, vec![40, 0]));
    for cabinet in both() {
        let mut image = asking().image(0);
        assert_eq!(cabinet.connection_failed(&mut image, UP).block0, 0);
        assert_eq!(cabinet.restore(&mut image).block0, 0);
    }
}

#[test]
fn the_marks_follow_what_was_told() {
    let told =
        |marks: u8, message: Message, protected| received(&Stored { marks, ..asking() }, message, protected).marks;
    for protected in [true, false] {
        assert_eq!(told(0, notification(NO_RESOURCES, 9), protected), STOPPED);
        assert_eq!(told(STOPPING, notification(NO_RESOURCES, 9), protected), STOPPED | STOPPING);
    }
    assert_eq!(told(STOPPED | STOPPING, notification(RESOURCES_AVAILABLE, 9), true), STOPPING);
    assert_eq!(told(STOPPED | STOPPING, notification(0x0D, 9), true), STOPPED | STOPPING);
    for cabinet in both() {
        let tell = |marks, status| submit(cabinet, &Stored { marks, ..asking() }, notification(status, 9)).1.marks;
        assert_eq!([tell(0, NO_RESOURCES), tell(STOPPED, NO_RESOURCES)], [STOPPING, STOPPED | STOPPING]);
        assert_eq!([tell(6, RESOURCES_AVAILABLE), tell(STOPPED, RESOURCES_AVAILABLE)], [STOPPED, STOPPED]);
        let mut image = Stored { marks: STOPPED, ..asking() }.image(0);
        let available = notification(RESOURCES_AVAILABLE, 9).bytes();
        assert_eq!(cabinet.receive(&mut image, UP, &available).answer, 33, "it is protected, or the state is released");
        assert_eq!(image[..512], Stored::idle().image(0)[..512]);
    }
}

/// In UpPlain messages are passed on, and nothing is remembered of them.
#[test]
fn without_fault_tolerance_nothing_is_remembered() {
    let plain = Session::new(phase::UP_PLAIN, 0);
    for cabinet in both() {
        for message in
            [notification(NO_RESOURCES, 0), notification(RESOURCES_AVAILABLE, 0), mapping(LABEL).request_id(0)]
        {
            let mut image = Stored { ids: asking().ids, ..Stored::idle() }.image(0);
            let outcome = cabinet.receive(&mut image, plain, &message.bytes());
            assert_eq!((outcome.answer, outcome.block0, outcome.further), (0, 0, 0));
        }
    }
}

#[test]
fn a_request_is_shown_where_it_is_open() {
    for cabinet in both() {
        let image = asking().image(0);
        let shown = |place| {
            let request = cabinet.request_at(&image, place);
            (request.open, request.id)
        };
        assert_eq!([shown(2), shown(4)], [(1, 40), (1, 0)]);
        assert_eq!([shown(0), shown(1), shown(5), shown(119), shown(120), shown(u32::MAX)], [(0, 0); 6]);
        assert_eq!([cabinet.label(&image, 2), cabinet.label(&image, 5)], [REQUEST, 0]);
        assert_eq!(cabinet.request_at(&image[..512], 2).open, 0);
    }
}
