//! The paper's marked cases and its examples to run, on the library and on the model.

use cabinet::{has, phase, Cabinet, Opening, Session, IMAGE_SIZE};
use model::Model;
use trials::stored::{word, Queued, Stored};
use trials::under_test::UnderTest;
use trials::wire::{prefix, tlvs, types, Message, NO_RESOURCES, RESOURCES_AVAILABLE};

fn both() -> [&'static dyn Cabinet; 2] {
    [&UnderTest, &Model]
}

fn up(sent: u32) -> Session {
    Session::new(phase::UP_FT, sent)
}

const FAILED: Session = Session::new(phase::FAILED, 0);

fn mapping(label: u32) -> Vec<u8> {
    Message::new(types::MAPPING, label).fec(&prefix(label as u16)).label(label).bytes()
}

/// A kept session with so many Mappings held, of which so many have numbers.
fn holding(held: u32, released: u32, issued: u32) -> Stored {
    let queue = (0..held).map(|n| Queued { kind: 1, label: 16 + n, bytes: mapping(16 + n) }).collect();
    let mut stored = Stored { released, issued, timeout: 5_000, kept: true, queue, ..Stored::idle() };
    for n in 0..held {
        stored.labels[n as usize] = word(16 + n, 1);
    }
    stored
}

/// Plain numbers: in seconds of the draft's form as the paper has them, and as many in milliseconds.
#[test]
fn p1_to_p3_lesser_timeout() {
    for cabinet in both() {
        assert_eq!(cabinet.lesser_timeout(0, 5), 5);
        assert_eq!(cabinet.lesser_timeout(0, 0), 0);
        assert_eq!(cabinet.lesser_timeout(65_535, 0), 65_535);
        for (a, b) in [(0, 5), (0, 0), (65_535, 0), (5, 30)] {
            assert_eq!(cabinet.lesser_timeout(1_000 * a, 1_000 * b), 1_000 * cabinet.lesser_timeout(a, b));
        }
    }
}

/// The answer to a KeepAlive with the ACK, and how many messages are held after it.
fn acknowledge(cabinet: &dyn Cabinet, ack: u32) -> (u32, usize) {
    let mut image = holding(4, 0xFFFF_FFFE, 1).image(0);
    let keepalive = Message::new(types::KEEPALIVE, 1).ack(ack).bytes();
    let outcome = cabinet.receive(&mut image, up(2), &keepalive);
    (outcome.answer, Stored::read(&image).queue.len())
}

#[test]
fn p4_to_p7_acknowledgements_across_the_wrap() {
    for cabinet in both() {
        assert_eq!(acknowledge(cabinet, 1), (0, 2));
        assert_eq!(acknowledge(cabinet, 0), (34, 0));
        assert_eq!(acknowledge(cabinet, 2), (34, 0));
        assert_eq!(acknowledge(cabinet, 0xFFFF_FFFE), (0, 4));
    }
}

#[test]
fn p8_and_p9_distances() {
    for cabinet in both() {
        assert_eq!(cabinet.distance(0xFFFF_FFFF, 1).steps, 1);
        assert_eq!(cabinet.distance(1, 0x8000_0001).steps, -2_147_483_647);
        assert_eq!(cabinet.distance(0x8000_0001, 1).steps, 2_147_483_647);
        assert_eq!(cabinet.distance(0, 1).answer, 2);
    }
}

/// In the draft's form: "R set, 5 s".
#[test]
fn p10_init_with_reconnect() {
    for cabinet in both() {
        let image = Stored { secured: 9, ..holding(0, 0, 0) }.image(0);
        let mut out = [0; 64];
        let opening = Opening { proposal: Some(5), published: false, ..Opening::default() };
        let outcome = cabinet.open(&image, FAILED, &opening, &mut out);
        assert_eq!((outcome.answer, outcome.length), (0, 42));
        assert_eq!(out[26..42], [0x85, 3, 0, 4, 0x80, 0, 0, 5, 5, 4, 0, 4, 0, 0, 0, 9]);
        assert_eq!(outcome.session, Session::new(phase::INIT_WAIT, 5_000));
    }
}

#[test]
fn p11_number_27() {
    for cabinet in both() {
        let mut image = holding(1, 26, 26).image(0);
        let mut out = [0; 64];
        let outcome = cabinet.send_next(&mut image, up(0), false, &mut out);
        assert_eq!((outcome.answer, outcome.length), (0, 36));
        assert_eq!(out[28..36], [2, 3, 0, 4, 0, 0, 0, 0x1B]);
        assert_eq!(Stored::read(&image).issued, 27);
    }
}

#[test]
fn p12_check_of_a_zero_block() {
    for cabinet in both() {
        assert_eq!(cabinet.block_check(&[0; 512]), 0x0001_00FE);
    }
}

/// In seconds, as the paper has it; time passed counts milliseconds.
#[test]
fn timeout_5_elapsed_4_keeps_and_5_releases() {
    for cabinet in both() {
        let mut image = holding(1, 0, 0).image(0);
        assert_eq!(cabinet.time_passed(&mut image, FAILED, 4_000).session.phase, phase::FAILED);
        assert_eq!(cabinet.time_passed(&mut image, FAILED, 4_999).session.phase, phase::FAILED);
        assert_eq!(cabinet.time_passed(&mut image, FAILED, 5_000).session.phase, phase::IDLE);
        assert_eq!(image[..512], Stored::idle().image(0)[..512]);
    }
}

/// 02: "The proposal used where the owner gives none becomes 30"; a peer that proposes 5 still makes it 5.
#[test]
fn without_a_proposal_29_keeps_and_30_releases() {
    for cabinet in both() {
        for (peers, agreed) in [(0, 30), (65_535, 30), (30, 30), (5, 5)] {
            let mut image = vec![0; IMAGE_SIZE];
            let mut out = [0; 64];
            cabinet.format(&mut image);
            let opened = cabinet.open(&image, Session::default(), &Opening::default(), &mut out);
            assert_eq!(out[26..34], [0x85, 3, 0, 4, 0, 0, 0, 30]);
            let init = Message::new(types::INITIALIZATION, 1).parameters(30, 4096).ft_session(false, peers).bytes();
            assert_eq!(cabinet.init_received(&mut image, opened.session, &init).session, up(0));
            assert_eq!(cabinet.connection_failed(&mut image, up(0)).session, FAILED);
            assert_eq!(cabinet.time_passed(&mut image, FAILED, 1_000 * agreed - 1).session.phase, phase::FAILED);
            assert_eq!(cabinet.time_passed(&mut image, FAILED, 1_000 * agreed).session.phase, phase::IDLE);
        }
    }
}

#[test]
fn a_zero_timeout_keeps_for_ever() {
    for cabinet in both() {
        let mut image = Stored { timeout: 0, ..holding(1, 0, 0) }.image(0);
        assert_eq!(cabinet.time_passed(&mut image, FAILED, u32::MAX).session.phase, phase::FAILED);
    }
}

#[test]
fn of_480_bytes_taken_of_481_refused() {
    for cabinet in both() {
        let mut image = holding(0, 0, 0).image(0);
        let of_length = |length| Message::new(types::ADDRESS, 1).padded_to(length).bytes();
        assert_eq!(cabinet.submit(&mut image, FAILED, &of_length(481)).answer, 3);
        assert_eq!(cabinet.submit(&mut image, FAILED, &of_length(480)).answer, 0);
        assert_eq!(cabinet.restore(&mut image).answer, 0);
    }
}

#[test]
fn the_64th_held_is_taken_and_the_65th_refused() {
    for cabinet in both() {
        let mut image = holding(63, 0, 0).image(0);
        assert_eq!(cabinet.submit(&mut image, FAILED, &mapping(500)).answer, 0);
        assert_eq!(cabinet.submit(&mut image, FAILED, &mapping(501)).answer, 7);
    }
}

#[test]
fn a_fresh_session_from_a_new_image() {
    for cabinet in both() {
        let mut image = vec![0xFF; IMAGE_SIZE];
        let mut out = [0; 64];
        let formatted = cabinet.format(&mut image);
        assert_eq!((formatted.block0, formatted.further, formatted.slot), (1, 0b111, 0));
        let opened = cabinet.open(&image, Session::default(), &Opening::default(), &mut out);
        assert_eq!((opened.answer, opened.length, opened.session.value), (0, 34, 30_000));
        let init = Message::new(types::INITIALIZATION, 1).parameters(30, 4096).ft_session(true, 0).ack(8).bytes();
        let outcome = cabinet.init_received(&mut image, opened.session, &init);
        assert_eq!((outcome.answer, outcome.session, outcome.block0), (0, up(0), 1));
        let submitted = cabinet.submit(&mut image, up(0), &mapping(16));
        assert_eq!((submitted.answer, submitted.slot, submitted.block0), (0, 1, 1));
        let stored = Stored::read(&image);
        assert_eq!((stored.timeout, stored.keepalive_time, stored.max_pdu_length), (30_000, 30, 4096));
        assert_eq!((stored.issued, stored.queue.len(), stored.labels[0]), (0, 1, word(16, 1)));
    }
}

#[test]
fn the_two_notifications_are_kinds_6_and_9_where_e_is_clear() {
    for cabinet in both() {
        let kind = |status| cabinet.message_read(&Message::new(types::NOTIFICATION, 1).status(status).bytes()).kind;
        for (status, expected) in [(RESOURCES_AVAILABLE, 6), (NO_RESOURCES, 9)] {
            assert_eq!(kind(status), expected);
            assert_eq!(kind(status | 0x4000_0000), expected);
            assert_eq!(kind(status | 0x8000_0000), 0);
        }
        assert_eq!(kind(0x0D), 0);
        assert_eq!(cabinet.message_read(&Message::new(types::NOTIFICATION, 1).bytes()).kind, 0);
    }
}

/// 02: "malformed also Request and Abort without FEC, Abort without 0x0600"; a listed TLV is judged in every message.
#[test]
fn requests_and_aborts_are_read() {
    for cabinet in both() {
        let read = |message: Message| cabinet.message_read(&message.bytes());
        let request = || Message::new(types::REQUEST, 9).fec(&prefix(1));
        let abort = || Message::new(types::ABORT, 9).fec(&prefix(1));
        let asked = read(request());
        assert_eq!((asked.answer, asked.kind, asked.message_id, asked.has), (0, 7, 9, has::FEC));
        let aborted = read(abort().request_id(0xFFFF_FFFF));
        assert_eq!((aborted.answer, aborted.kind, aborted.request_id), (0, 8, 0xFFFF_FFFF));
        assert_eq!(aborted.has, has::FEC | has::REQUEST_ID);
        let named = read(Message::new(types::NOTIFICATION, 9).status_of(0x0D, 77));
        assert_eq!((named.status, named.status_id, named.request_id), (0x0D, 77, 0));
        let bare = |message_type| Message::new(message_type, 9);
        for malformed in [
            bare(types::REQUEST),
            bare(types::ABORT).request_id(1),
            abort(),
            abort().request_id(1).request_id(1),
            request().tlv(tlvs::REQUEST_ID, &[0; 3]),
            bare(types::KEEPALIVE).tlv(tlvs::REQUEST_ID, &[0; 5]),
        ] {
            assert_eq!(read(malformed.clone()).answer, 22, "{malformed:?}");
        }
    }
}

/// Bit A is the top bit of the parameters' fifth byte, as this Open says.
#[test]
fn on_demand_is_bit_a_of_our_init() {
    for cabinet in both() {
        let image = holding(0, 0, 0).image(0);
        let before = image.clone();
        for (on_demand, byte) in [(true, 0x80), (false, 0)] {
            let mut out = [0; 64];
            let opening = Opening { keepalive_time: 30, max_pdu_length: 4096, on_demand, ..Opening::default() };
            assert_eq!(cabinet.open(&image, FAILED, &opening, &mut out).length, 42);
            assert_eq!(out[8..20], [5, 0, 0, 14, 0, 1, 0, 30, byte, 0, 0x10, 0]);
        }
        assert_eq!(image, before);
    }
}

/// 02: an image that an earlier release stored, with sealed zero blocks behind it, stands for the same state.
#[test]
fn an_image_of_65_or_66_blocks_is_extended() {
    for cabinet in both() {
        for (size, bits) in [(33_280, 0b111), (33_792, 0b110)] {
            let stored = holding(3, 7, 9);
            let earlier = stored.image(0xD1)[..size].to_vec();
            let mut image = earlier.clone();
            image.resize(IMAGE_SIZE, 0x77);
            let junk = image.clone();
            let refused = [(IMAGE_SIZE, IMAGE_SIZE), (IMAGE_SIZE, 33_279), (IMAGE_SIZE, 34_304), (size, size), (0, 0)];
            for (length, stored_len) in refused {
                let refused = cabinet.extend(&mut image[..length], stored_len);
                assert_eq!((refused.answer, refused.further), (12, 0));
                assert_eq!(image, junk);
            }
            let extended = cabinet.extend(&mut image, size);
            assert_eq!((extended.answer, extended.further), (0, bits));
            assert_eq!(image[..size], earlier);
            for block in image[size..].chunks(512) {
                assert_eq!((&block[..508], &block[508..]), (&[0; 508][..], &[0, 1, 0, 0xFE][..]));
            }
            assert_eq!(cabinet.restore(&mut image).answer, 0);
            assert_eq!(Stored::read(&image), stored);
        }
    }
}
