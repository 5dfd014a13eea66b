//! The upgrade in the field, as a run: a cabinet with an image of the base, 65 blocks of version 1, or of a release
//! before the index, 66 blocks, is given this release. Its image is extended, moved forward where it is of version 1,
//! and restored; it resumes with its peer, and nothing held or listed is lost.

mod pair;

use cabinet::{phase, Cabinet, Session, BLOCK_SIZE, IMAGE_SIZE, IMAGE_SIZE_WITHOUT_INDEX, IMAGE_SIZE_WITHOUT_REQUESTS};
use model::Model;
use pair::{connect, End};
use trials::entries::entry_of;
use trials::stored::{word, Queued, Stored, Version, ENTRY_PLACES, NO_LABEL, REQUEST, SLOTS};
use trials::under_test::UnderTest;
use trials::wire::{prefix, types, Message, WILDCARD};

fn both() -> [&'static dyn Cabinet; 2] {
    [&UnderTest, &Model]
}

fn about(message_type: u16, label: u32) -> Vec<u8> {
    Message::new(message_type, label).fec(&prefix(label as u16)).label(label).bytes()
}

fn address(id: u32) -> Vec<u8> {
    Message::new(types::ADDRESS, id).bytes()
}

/// What the base has stored: five messages held, of which three were sent, and labels of every code that it knew, all
/// 119 words but the last in use; its numbers are about to wrap.
fn of_the_base() -> Stored {
    let held = [
        (1, 20, about(types::MAPPING, 20)),
        (2, 21, about(types::WITHDRAW, 21)),
        (3, 30, about(types::RELEASE, 30)),
        (4, NO_LABEL, address(1)),
        (1, 22, about(types::MAPPING, 22)),
    ];
    let mut stored = Stored {
        version: Version::One,
        released: 0xFFFF_FFFE,
        issued: 2,
        secured: 7,
        first: 62,
        timeout: 5,
        kept: true,
        keepalive_time: 0,
        max_pdu_length: 0,
        labels: vec![0; 120],
        queue: held.map(|(kind, label, bytes)| Queued { kind, label, bytes }).to_vec(),
        ..Stored::idle()
    };
    let codes = [(20, 1), (21, 2), (22, 1), (30, 5), (31, 3), (32, 4)];
    let listed = codes.into_iter().chain((200..313).map(|label| (label, 3)));
    for (place, (label, code)) in listed.enumerate() {
        stored.labels[place] = word(label, code);
    }
    stored
}

/// The peer, which has secured the first of those sent and has kept its state too.
fn peer() -> Stored {
    Stored { released: 7, issued: 7, secured: 0xFFFF_FFFF, timeout: 5_000, kept: true, ..Stored::idle() }
}

/// The order that the header tells: extend, move forward into a second buffer, store block 0, restore.
fn upgraded(cabinet: &dyn Cabinet, stored: &[u8]) -> (Vec<u8>, Session) {
    let mut medium = stored.to_vec();
    medium.resize(IMAGE_SIZE, 0x77);
    let mut image = medium.clone();
    let extended = cabinet.extend(&mut image, stored.len());
    let made = if stored.len() == IMAGE_SIZE_WITHOUT_REQUESTS { 0b111 } else { 0b110 };
    assert_eq!((extended.answer, extended.further), (0, made));
    medium[stored.len()..].copy_from_slice(&image[stored.len()..]);
    let mut later = vec![0; IMAGE_SIZE];
    let converted = cabinet.convert_forward(&image, &mut later);
    assert_eq!((converted.answer, converted.length as usize), (0, IMAGE_SIZE));
    medium[..BLOCK_SIZE].copy_from_slice(&later[..BLOCK_SIZE]);
    assert_eq!(medium, later, "with block 0 stored alone the medium holds all of it");
    let restored = cabinet.restore(&mut medium);
    assert_eq!((restored.answer, restored.block0), (0, 0));
    (medium, restored.session)
}

#[test]
fn an_image_of_the_base_is_taken_over_and_resumes_with_its_peer() {
    for cabinet in both() {
        let base = of_the_base();
        let (image, session) = upgraded(cabinet, &base.image(0xD1)[..IMAGE_SIZE_WITHOUT_REQUESTS]);
        assert_eq!(session, Session::new(phase::FAILED, 0));
        let taken = Stored::read(&image);
        assert_eq!(taken, base.moved(Version::Two).unwrap());
        assert_eq!((taken.timeout, taken.labels.clone()), (5_000, base.labels[..119].to_vec()));
        let mut ours = End { image, ..End::new(cabinet, &taken, session) };
        let mut peers = End::new(cabinet, &peer(), session);
        ours.opening.published = true;
        connect(&mut ours, &mut peers, true);
        assert_eq!([&ours, &peers].map(|end| end.stored().timeout), [30_000; 2]);
        let rest = base.queue[1..].iter().zip([1, 2, 3, 4]);
        for (queued, number) in rest {
            ours.expect_sent(&queued.bytes, number, 0);
            peers.receive(&ours.written, 0);
        }
        ours.expect_nothing_unsent();
        ours.acknowledged(4);
        let after = ours.stored();
        assert_eq!((after.queue.len(), after.released, peers.stored().secured), (0, 4, 4));
        let code = |label| after.labels.iter().find(|word| **word & 0xF_FFFF == label).map(|word| word >> 20);
        assert_eq!([20, 21, 22, 30, 31, 32].map(code), [Some(1), Some(8), Some(1), None, Some(3), Some(4)]);
        assert_eq!(after.labels.iter().filter(|word| **word >> 20 == 3).count(), 114);
    }
}

/// What a release of tickets 2 to 5 has stored: labels of every code and an open Request, in 66 blocks.
fn before_the_index(version: Version) -> Stored {
    let mut stored = Stored { version, secured: 10, kept: true, ..Stored::idle() };
    stored.labels = vec![0; version.places()];
    for (place, code) in [1, 2, 3, 4, 5, 6, 8, 9].into_iter().enumerate() {
        stored.labels[place] = word(20 + place as u32, code);
    }
    (stored.labels[70], stored.ids[70]) = (REQUEST, 77);
    stored
}

/// The image of such a release, extended and moved forward where it has to be, but not restored.
fn extended(cabinet: &dyn Cabinet, stored: &Stored) -> Vec<u8> {
    let mut image = stored.image(0xD1);
    image[IMAGE_SIZE_WITHOUT_INDEX..].fill(0x77);
    assert_eq!(cabinet.extend(&mut image, IMAGE_SIZE_WITHOUT_INDEX).further, 0b110);
    if stored.version == Version::One {
        let mut later = vec![0; IMAGE_SIZE];
        assert_eq!(cabinet.convert_forward(&image, &mut later).answer, 0);
        image = later;
    }
    image
}

/// 02: an image of tickets 2 to 5, the missing blocks put behind it, is sound, and "its labels then count as of other
/// FECs": no prefix reaches them, the wildcard and their own names do, and a Mapping of a prefix moves them.
#[test]
fn labels_of_a_release_before_the_index_count_as_of_other_fecs() {
    let up = Session::new(phase::UP_FT, 0);
    for (cabinet, version) in both().into_iter().flat_map(|cabinet| [Version::One, Version::Two].map(|v| (cabinet, v)))
    {
        let image = extended(cabinet, &before_the_index(version));
        let before = Stored::read(&image);
        assert_eq!((before.entries, before.open_requests()), ([0; ENTRY_PLACES], vec![77]));
        assert!((0..119).all(|place| cabinet.prefix_at(&image, place).indexed == 0));
        let received = |message: Message| {
            let mut image = image.clone();
            let message = message.protection(11);
            let outcome = cabinet.receive(&mut image, up, &message.bytes());
            assert_eq!(outcome.answer, 0, "{message:?}");
            (outcome.further, Stored::read(&image))
        };
        for message_type in [types::WITHDRAW, types::RELEASE] {
            for fec in [&prefix(22)[..], &[2, 0, 1, 0], &[], &[3, 0, 1]] {
                let (further, after) = received(Message::new(message_type, 1).fec(fec));
                assert_eq!((further, after.labels, after.entries), (0, before.labels.clone(), before.entries));
            }
            assert_ne!(received(Message::new(message_type, 1).fec(WILDCARD)).1.labels, before.labels);
        }
        let (_, after) = received(Message::new(types::WITHDRAW, 1).fec(&prefix(22)).label(22));
        assert_eq!(after.labels[2], word(22, 4));
        let (further, after) = received(Message::new(types::MAPPING, 1).fec(&prefix(22)).label(22));
        assert_eq!((further, after.labels[2], after.labels[8]), (0b10, 0, word(22, 3)));
        assert_eq!(after.entries[8], entry_of(&prefix(22)));
        let (further, after) = received(Message::new(types::MAPPING, 1).fec(&[]).label(22));
        assert_eq!((further, after.labels[2]), (0, word(22, 3)), "another FEC, as before");
    }
}

/// A cut at each point of the upgrade: what is stored is either still the base's, or this release's, and neither is
/// lost.
#[test]
fn a_cut_in_the_upgrade_loses_nothing() {
    for cabinet in both() {
        let base = of_the_base().image(0xD1);
        let stored = &base[..IMAGE_SIZE_WITHOUT_REQUESTS];
        // before the further blocks are whole on the medium the file is as long as it was, or they are made again
        assert_eq!(upgraded(cabinet, stored).0, upgraded(cabinet, stored).0);
        // they are stored, block 0 is not: the image is of version 1 and has its size
        let mut extended = base.clone();
        cabinet.extend(&mut extended, stored.len());
        let refused = cabinet.restore(&mut extended.clone());
        assert_eq!((refused.answer, refused.block), (11, 0));
        let mut later = vec![0; IMAGE_SIZE];
        assert_eq!(cabinet.convert_forward(&extended, &mut later).answer, 0);
        assert_eq!(later, upgraded(cabinet, stored).0);
    }
}

/// 16: the 120th word is in use. Before the upgrade the earlier release frees it; no other word stands in the way.
#[test]
fn the_120th_label_bars_the_upgrade_until_it_is_free() {
    for cabinet in both() {
        let mut base = of_the_base();
        base.labels[119] = word(400, 3);
        let mut later = vec![0; IMAGE_SIZE];
        assert_eq!(cabinet.convert_forward(&base.image(0), &mut later).answer, 16);
        base.labels[119] = 0;
        assert_eq!(cabinet.convert_forward(&base.image(0), &mut later).answer, 0);
    }
}

/// And back again: with the timeout that the peer's seconds agreed on, the earlier release gets its own bytes.
#[test]
fn a_cabinet_goes_back_to_the_earlier_release() {
    for cabinet in both() {
        let base = of_the_base();
        let (image, _) = upgraded(cabinet, &base.image(0xD1)[..IMAGE_SIZE_WITHOUT_REQUESTS]);
        let mut earlier = vec![0; IMAGE_SIZE];
        assert_eq!(cabinet.convert_back(&image, &mut earlier).answer, 0);
        assert_eq!(earlier[..IMAGE_SIZE_WITHOUT_REQUESTS], base.image(0xD1)[..IMAGE_SIZE_WITHOUT_REQUESTS]);
        assert_eq!(Stored::read(&earlier).queue.len(), base.queue.len());
        assert!(base.queue.len() < SLOTS);
    }
}
