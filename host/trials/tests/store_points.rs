//! What a call asks to be stored: at most one slot that is not live, then one further block, then block 0, and each
//! only where it must be.

use cabinet::{further, phase, Cabinet, Outcome, Session, INDEX_BLOCKS, REQUEST_BLOCK};
use model::Model;
use trials::entries::{entry, entry_of};
use trials::stored::{word, Stored, PLACES, REQUEST, STOPPED};
use trials::under_test::UnderTest;
use trials::wire::{prefix, types, Message};

const FAILED: Session = Session::new(phase::FAILED, 0);

fn both() -> [&'static dyn Cabinet; 2] {
    [&UnderTest, &Model]
}

fn mapping() -> Vec<u8> {
    Message::new(types::MAPPING, 1).fec(&prefix(1)).label(16).bytes()
}

/// A kept state with an empty ring that starts at slot 63, and a label used without protection.
fn kept() -> Stored {
    let mut stored = Stored { first: 63, timeout: 5_000, kept: true, ..Stored::idle() };
    stored.labels[0] = word(20, 6);
    stored
}

#[test]
fn with_only_the_slot_stored_restore_gives_the_state_before_the_call() {
    for cabinet in both() {
        let before = kept().image(0xEE);
        let mut image = before.clone();
        let outcome = cabinet.submit(&mut image, FAILED, &mapping());
        assert_eq!((outcome.answer, outcome.slot, outcome.block0), (0, 64, 1));
        image[..512].copy_from_slice(&before[..512]);
        image[INDEX_BLOCKS[0] * 512..].copy_from_slice(&before[INDEX_BLOCKS[0] * 512..]);
        let restored = cabinet.restore(&mut image);
        assert_eq!((restored.answer, restored.session, restored.block0), (0, FAILED, 1));
        let mut expected = kept();
        expected.labels[0] = 0;
        assert_eq!(Stored::read(&image), expected);
    }
}

const UP: Session = Session::new(phase::UP_FT, 0);

fn request(id: u32) -> Vec<u8> {
    Message::new(types::REQUEST, id).fec(&prefix(1)).bytes()
}

/// A kept state whose second word is an open Request's, with the ID of one that is over beside the third.
fn asking() -> Stored {
    let mut stored = kept();
    (stored.labels[1], stored.ids[1], stored.ids[2]) = (REQUEST, 40, 41);
    stored
}

/// 02: an ID "stays when its word is freed, so a cut leaves the state before".
#[test]
fn with_slot_and_block_65_stored_restore_gives_the_state_before_the_call() {
    for cabinet in both() {
        let before = asking().image(0xEE);
        let mut image = before.clone();
        let outcome = cabinet.submit(&mut image, UP, &request(42));
        assert_eq!((outcome.answer, outcome.slot, outcome.further, outcome.block0), (0, 64, further::REQUESTS, 1));
        let after = Stored::read(&image);
        assert_eq!((after.labels[2], after.ids[2]), (REQUEST, 42));
        image[..512].copy_from_slice(&before[..512]);
        assert_eq!(cabinet.restore(&mut image).answer, 0);
        assert_eq!(Stored::read(&image).state(), asking().after_break().state());
        assert_eq!([1, 2].map(|place| cabinet.request_at(&image, place).open), [1, 0]);
    }
}

/// The word at a place is free, all before it are in use by labels of another prefix; 700 is asked back in the last.
fn full_but_for(place: usize) -> Stored {
    let mut stored = Stored { secured: 10, timeout: 5_000, kept: true, ..Stored::idle() };
    for other in (0..PLACES).filter(|other| *other != place) {
        (stored.labels[other], stored.entries[other]) = (word(1_000 + other as u32, 3), entry(24, other as u32));
    }
    stored.entries[place] = u64::MAX;
    (stored.labels[PLACES - 1], stored.entries[PLACES - 1]) = (word(700, 4), entry_of(&prefix(700)));
    stored
}

fn mapping_of(label: u32, host: u16) -> Message {
    Message::new(types::MAPPING, 1).fec(&prefix(host)).label(label)
}

/// 02, ticket 6: an entry "stays when that is freed", and a Mapping takes a word "that is free in the old block 0 too":
/// with the index stored and block 0 not, in Submit and in Receive, and in a Receive that moves a label.
#[test]
fn with_a_block_of_the_index_stored_restore_gives_the_state_before_the_call() {
    let submit = mapping_of(700, 701).bytes();
    let receive = mapping_of(701, 701).protection(11).bytes();
    let moves = mapping_of(700, 701).protection(11).bytes();
    for cabinet in both() {
        for (place, block, bit) in [(0, 66, 2), (59, 66, 2), (60, 67, 4), (117, 67, 4)] {
            let before = full_but_for(place).image(0xEE);
            let cut = |call: &dyn Fn(&mut [u8]) -> Outcome, slot: u32, label: u32, code: u32| {
                let mut image = before.clone();
                let outcome = call(&mut image);
                assert_eq!((outcome.answer, outcome.slot, outcome.further, outcome.block0), (0, slot, bit, 1));
                let after = Stored::read(&image);
                assert_eq!((after.labels[place], after.entries[place]), (word(label, code), entry_of(&prefix(701))));
                assert_eq!(outcome.stores().collect::<Vec<_>>().last_chunk(), Some(&[block, 0]));
                image[..512].copy_from_slice(&before[..512]);
                assert_eq!(cabinet.restore(&mut image).answer, 0);
                assert_eq!(Stored::read(&image).state(), Stored { queue: Vec::new(), ..full_but_for(place) }.state());
            };
            cut(&|image| cabinet.submit(image, UP, &submit), 1, 700, 1);
            cut(&|image| cabinet.receive(image, UP, &receive), 0, 701, 3);
            cut(&|image| cabinet.receive(image, UP, &moves), 0, 700, 4);
        }
    }
}

/// Only a Mapping that takes a word writes the index, and one block of it; where the entry is there already it is not
/// named.
#[test]
fn the_index_is_named_only_where_its_bytes_change() {
    let named = |stored: &Stored, call: &dyn Fn(&mut [u8]) -> Outcome| {
        let mut image = stored.image(0xEE);
        let index = image[INDEX_BLOCKS[0] * 512..].to_vec();
        let outcome = call(&mut image);
        assert_eq!((outcome.answer, outcome.block0), (0, 1));
        assert_eq!(outcome.further & !further::REQUESTS != 0, image[INDEX_BLOCKS[0] * 512..] != index);
        outcome.further
    };
    let about = |message_type| Message::new(message_type, 1).fec(&prefix(700));
    for cabinet in both() {
        let receive = |message: Message| {
            let stored = full_but_for(60);
            named(&stored, &|image| cabinet.receive(image, UP, &message.clone().protection(11).bytes()))
        };
        assert_eq!(receive(mapping_of(700, 700)), 0, "the label has the entry");
        assert_eq!(receive(mapping_of(15, 701)), 0, "a label below 16 has none");
        assert_eq!(receive(about(types::WITHDRAW)), 0);
        assert_eq!(receive(about(types::RELEASE).label(700)), 0);
        assert_eq!(receive(mapping_of(701, 701)), further::INDEX[1]);
        let there = |mut stored: Stored| {
            stored.entries[60] = entry_of(&prefix(701));
            named(&stored, &|image| cabinet.submit(image, UP, &mapping_of(701, 701).bytes()))
        };
        assert_eq!(there(full_but_for(60)), 0, "as after a cut");
        let release = about(types::RELEASE).label(700).bytes();
        assert_eq!(named(&full_but_for(60), &|image| cabinet.submit(image, UP, &release)), 0);
        assert_eq!(named(&full_but_for(60), &|image| cabinet.submit(image, UP, &request(7))), further::REQUESTS);
        assert_eq!(named(&full_but_for(60), &|image| cabinet.time_passed(image, FAILED, 5_000)), 0);
    }
}

/// Only Submit of a Request writes block 65: an ID stays when its Request ends, by Abort, by answer or with the state.
#[test]
fn block_65_is_named_only_where_its_bytes_change() {
    let abort = Message::new(types::ABORT, 1).fec(&prefix(1)).request_id(40).bytes();
    let answer = Message::new(types::MAPPING, 1).fec(&prefix(1)).label(16).request_id(40).protection(1).bytes();
    let refusal = Message::new(types::NOTIFICATION, 1).status_of(0x0D, 40).bytes();
    for cabinet in both() {
        let same = |stored: &Stored, call: &dyn Fn(&mut [u8]) -> Outcome| {
            let mut image = stored.image(0xEE);
            let block = image[REQUEST_BLOCK * 512..][..512].to_vec();
            let outcome = call(&mut image);
            assert_eq!((outcome.answer, outcome.further & further::REQUESTS, outcome.block0), (0, 0, 1));
            assert_eq!(image[REQUEST_BLOCK * 512..][..512], block);
        };
        same(&asking(), &|image| cabinet.submit(image, UP, &request(41)));
        same(&asking(), &|image| cabinet.submit(image, UP, &abort));
        same(&asking(), &|image| cabinet.receive(image, UP, &answer));
        same(&asking(), &|image| cabinet.receive(image, UP, &refusal));
        same(&asking(), &|image| cabinet.time_passed(image, FAILED, 5_000));
        same(&asking(), &|image| cabinet.restore(image));
    }
}

/// Both marks and open Requests are in block 0: a release and a fresh start forget them, and leave the IDs' bytes.
#[test]
fn a_release_forgets_requests_and_marks_and_leaves_block_65() {
    let init = Message::new(types::INITIALIZATION, 1).parameters(30, 4096).ft_session(false, 5).bytes();
    let stopped = || Stored { marks: STOPPED, ..asking() };
    for cabinet in both() {
        let mut image = stopped().image(0xEE);
        let waiting = Session::new(phase::INIT_WAIT, 5_000);
        let fresh = cabinet.init_received(&mut image, waiting, &init);
        assert_eq!((fresh.answer, fresh.session, fresh.further), (0, UP, 0));
        let after = Stored::read(&image);
        assert_eq!((after.marks, after.open_requests().len(), after.ids), (0, 0, stopped().ids));
        assert_eq!(cabinet.submit(&mut image, UP, &request(40)).answer, 0);
    }
}

#[test]
fn a_slot_that_gets_the_same_bytes_again_is_named() {
    for cabinet in both() {
        let before = kept().image(0xEE);
        let mut image = before.clone();
        cabinet.submit(&mut image, FAILED, &mapping());
        let slot = image[64 * 512..65 * 512].to_vec();
        image[..512].copy_from_slice(&before[..512]);
        let again = cabinet.submit(&mut image, FAILED, &mapping());
        assert_eq!((again.slot, again.further, again.block0), (64, 0, 1));
        assert_eq!(image[64 * 512..65 * 512], slot);
    }
}

#[test]
fn block_0_is_named_only_where_its_bytes_change() {
    for cabinet in both() {
        let mut image = kept().image(0xEE);
        assert_eq!(cabinet.restore(&mut image).block0, 1);
        assert_eq!(cabinet.restore(&mut image).block0, 0);
        assert_eq!(cabinet.time_passed(&mut image, FAILED, 4_999).block0, 0);
        assert_eq!(cabinet.time_passed(&mut image, FAILED, 5_000).block0, 1);
        let plain = Session::new(phase::UP_PLAIN, 0);
        let fatal = Message::new(types::NOTIFICATION, 1).status(0x8000_0001).bytes();
        let ended = cabinet.receive(&mut image, plain, &fatal);
        assert_eq!((ended.answer, ended.block0), (36, 0));
    }
}

#[test]
fn a_number_is_stored_when_it_is_given_and_not_again() {
    for cabinet in both() {
        let mut image = kept().image(0xEE);
        cabinet.submit(&mut image, FAILED, &mapping());
        let mut out = [0; 500];
        let first = cabinet.send_next(&mut image, UP, false, &mut out);
        assert_eq!((first.answer, first.slot, first.block0, first.session.value), (0, 0, 1, 1));
        let again = cabinet.send_next(&mut image, UP, false, &mut out);
        assert_eq!((again.answer, again.slot, again.block0, again.session.value), (0, 0, 0, 1));
    }
}
