//! Both forms of FT Session: what is written, what is read, and that both ends keep their state equally long whatever form each
//! of them writes, on the library and on the model.

mod pair;

use cabinet::{has, phase, Cabinet, Opening, Session, IMAGE_SIZE};
use model::Model;
use pair::{connect, End};
use trials::inits;
use trials::stored::Stored;
use trials::under_test::UnderTest;
use trials::wire::{tlvs, types, Message};

const FAILED: Session = Session::new(phase::FAILED, 0);
const DRAFT: Opening = opening(false, None);
const PUBLISHED: Opening = opening(true, None);

const fn opening(published: bool, proposal: Option<u32>) -> Opening {
    Opening {
        message_id: 0x1122_3344,
        keepalive_time: 30,
        max_pdu_length: 4096,
        receiver_lsr: 0x0A00_0001,
        receiver_space: 3,
        proposal,
        on_demand: false,
        published,
    }
}

fn both() -> [&'static dyn Cabinet; 2] {
    [&UnderTest, &Model]
}

fn kept() -> Stored {
    Stored { secured: 9, kept: true, timeout: 5_000, keepalive_time: 30, max_pdu_length: 4096, ..Stored::idle() }
}

/// An Init as a cabinet writes it, and the milliseconds that InitWait bears then.
fn written(cabinet: &dyn Cabinet, stored: &Stored, opening: &Opening) -> (Vec<u8>, u32) {
    let mut out = [0xEE; 64];
    let session = if stored.kept { FAILED } else { Session::default() };
    let outcome = cabinet.open(&stored.image(0), session, opening, &mut out);
    assert_eq!((outcome.answer, outcome.session.phase, outcome.session.flags), (0, phase::INIT_WAIT, 0));
    (out[..outcome.length as usize].to_vec(), outcome.session.value)
}

/// "Its FT Session TLV has length 12 and counts milliseconds; .. setting S alone of its new flags, Recovery Time to 0".
#[test]
fn our_inits_byte_by_byte() {
    let parameters = [5, 0, 0, 14, 0, 1, 0, 30, 0, 0, 0x10, 0, 10, 0, 0, 1, 0, 3];
    let head = |length: u8| [2, 0, 0, length, 0x11, 0x22, 0x33, 0x44];
    let ack = [5, 4, 0, 4, 0, 0, 0, 9];
    let milliseconds = [0, 0, 0, 0x14, 0x82, 0, 0, 0, 0];
    for cabinet in both() {
        let published = opening(true, Some(5_250));
        let (fresh, value) = written(cabinet, &Stored::idle(), &published);
        let session = [&[0x85, 3, 0, 12, 0, 8, 0][..], &milliseconds].concat();
        assert_eq!((fresh, value), ([&head(38)[..], &parameters, &session].concat(), 5_250));
        let (resuming, _) = written(cabinet, &kept(), &published);
        let session = [&[0x85, 3, 0, 12, 0x80, 8, 0][..], &milliseconds].concat();
        assert_eq!(resuming, [&head(46)[..], &parameters, &session, &ack].concat());
        let (fresh, value) = written(cabinet, &Stored::idle(), &opening(false, Some(5)));
        let session = [0x85, 3, 0, 4, 0, 0, 0, 5];
        assert_eq!((fresh, value), ([&head(30)[..], &parameters, &session].concat(), 5_000));
        let (resuming, _) = written(cabinet, &kept(), &opening(false, Some(5)));
        let session = [0x85, 3, 0, 4, 0x80, 0, 0, 5];
        assert_eq!(resuming, [&head(38)[..], &parameters, &session, &ack].concat());
    }
}

/// The Inits that Wireshark's dissector was given (tests/published) are those that we write.
#[test]
fn what_wireshark_has_read_is_what_we_write() {
    let file = concat!(env!("CARGO_MANIFEST_DIR"), "/../../tests/published/inits.txt");
    let kept = std::fs::read_to_string(file).unwrap();
    for cabinet in both() {
        assert_eq!(inits::text(cabinet), kept);
    }
}

/// What our Init says of the timeout, in its own unit, and what InitWait bears.
fn proposed(cabinet: &dyn Cabinet, opening: &Opening) -> (u32, u32) {
    let (init, value) = written(cabinet, &Stored::idle(), opening);
    let read = cabinet.message_read(&init);
    assert_eq!((read.answer, read.published, read.reconnect), (0, u32::from(opening.published), 0));
    (read.timeout, value)
}

/// Each form proposes in its own unit, 30 seconds where none is given; the draft's says its longest for more.
#[test]
fn proposals() {
    for cabinet in both() {
        assert_eq!(proposed(cabinet, &DRAFT), (30, 30_000));
        assert_eq!(proposed(cabinet, &PUBLISHED), (30_000, 30_000));
        for (given, said) in [(0, 0), (1, 1), (65_535, 65_535), (65_536, 65_535), (131_071, 65_535), (u32::MAX, 65_535)]
        {
            assert_eq!(proposed(cabinet, &opening(false, Some(given))), (said, 1_000 * said), "{given} s");
        }
        for given in [0, 1, 999, 65_535, 65_536, 65_535_001, u32::MAX] {
            assert_eq!(proposed(cabinet, &opening(true, Some(given))), (given, given), "{given} ms");
        }
    }
}

/// "Heeding R alone": of 12 bytes R and the timeout are read, in every message; other lengths are malformed in every one.
#[test]
fn what_is_read_of_either_form() {
    for cabinet in both() {
        let read = |value: &[u8]| {
            let all = [types::INITIALIZATION, types::KEEPALIVE, types::ADDRESS, 0x3F00];
            let [read, others @ ..] =
                all.map(|kind| cabinet.message_read(&Message::new(kind, 1).tlv(tlvs::FT_SESSION, value).bytes()));
            let told = (read.answer, read.has, read.reconnect, read.timeout, read.published);
            assert!(others.iter().all(|o| (o.answer, o.has, o.reconnect, o.timeout, o.published) == told));
            told
        };
        let ft = has::FT_SESSION;
        assert_eq!(read(&[0x80, 8, 0, 0, 0, 0, 0x14, 0x82, 0, 0, 0, 0]), (0, ft, 1, 5_250, 1));
        assert_eq!(read(&[0x7F, 0xFF, 9, 9, 0, 0, 0x14, 0x82, 1, 2, 3, 4]), (0, ft, 0, 5_250, 1));
        assert_eq!(read(&[0x80, 0, 0, 0, 0xFF, 0xFF, 0xFF, 0xFF, 0, 0, 0, 0]), (0, ft, 1, u32::MAX, 1));
        assert_eq!(read(&[0x80, 0, 0, 5]), (0, ft, 1, 5, 0));
        assert_eq!(read(&[0x7F, 0xFF, 0xFF, 0xFF]), (0, ft, 0, 65_535, 0));
        for length in (0..=20).filter(|length| ![4, 12].contains(length)) {
            assert_eq!(read(&vec![0x80; length]), (22, 0, 0, 0, 0), "length {length}");
        }
        let twice = Message::new(types::INITIALIZATION, 1).ft_session(true, 5).ft_session_published(true, 5_000);
        assert_eq!(cabinet.message_read(&twice.bytes()).answer, 22);
        let none = cabinet.message_read(&Message::new(types::KEEPALIVE, 1).bytes());
        assert_eq!((none.has, none.published), (0, 0));
    }
}

/// The agreed milliseconds after an Init of either form with that proposal, ours being so many.
fn agreed(cabinet: &dyn Cabinet, stored: &Stored, ours: u32, session: Message) -> u32 {
    let mut image = stored.image(0);
    let waiting = Session::new(phase::INIT_WAIT, ours);
    let outcome = cabinet.init_received(&mut image, waiting, &session.bytes());
    assert_eq!((outcome.answer, outcome.session.phase), (0, phase::UP_FT));
    Stored::read(&image).timeout
}

/// The lesser of both, zero counting as for ever; seconds count 1,000 each, and InitWait bears every number.
#[test]
fn the_agreed_timeout_is_the_lesser_in_milliseconds() {
    let cases = [(0, 0, 0), (0, 5_000, 5_000), (5, 5_000, 5), (5_250, 6_000, 5_250), (6_000, 5_000, 5_000)];
    let far = [(u32::MAX, 65_535_000, 65_535_000), (u32::MAX, 0, u32::MAX), (65_536, 66_000, 65_536)];
    for cabinet in both() {
        for stored in [kept(), Stored::idle()] {
            let init = || Message::new(types::INITIALIZATION, 1).parameters(30, 4096);
            for (ours, theirs, due) in cases.into_iter().chain(far) {
                let draft = init().ft_session(true, (theirs / 1_000) as u16).ack(0);
                assert_eq!(agreed(cabinet, &stored, ours, draft), due, "{ours} and {theirs}");
                let published = init().ft_session_published(true, theirs).ack(0);
                assert_eq!(agreed(cabinet, &stored, ours, published), due, "{ours} and {theirs}, published");
            }
            let published = init().ft_session_published(true, 5).ack(0);
            assert_eq!(agreed(cabinet, &stored, 0, published), 5, "the lesser of 0 and 5 milliseconds");
        }
    }
}

/// Whatever forms the two ends write, and whatever they write on the next connection, both agree on the same time, and the state
/// is released at exactly that.
#[test]
fn ends_with_other_forms_agree_on_the_same_time() {
    let openings = [
        (opening(false, Some(6)), 6_000),
        (opening(true, Some(6_000)), 6_000),
        (opening(true, Some(5_250)), 5_250),
        (opening(true, Some(0)), 0),
        (opening(false, Some(0)), 0),
        (DRAFT, 30_000),
        (PUBLISHED, 30_000),
    ];
    for cabinet in both() {
        for (ours, first) in openings {
            for (theirs, second) in openings {
                let due = cabinet.lesser_timeout(first, second);
                let [mut us, mut them] = [End::fresh(cabinet), End::fresh(cabinet)];
                (us.opening, them.opening) = (ours, theirs);
                for resumed in [false, true] {
                    connect(&mut us, &mut them, resumed);
                    assert_eq!([&us, &them].map(|end| end.stored().timeout), [due; 2]);
                    us.fail();
                    them.fail();
                    std::mem::swap(&mut us.opening, &mut them.opening);
                }
                assert_expires_at(&mut us, due);
                assert_expires_at(&mut them, due);
            }
        }
    }
}

/// "Expiry at exactly the agreed milliseconds": one less keeps the state; zero keeps it for ever.
fn assert_expires_at(end: &mut End, due: u32) {
    let before = if due == 0 { u32::MAX } else { due - 1 };
    let early = end.cabinet.time_passed(&mut end.image, FAILED, before);
    assert_eq!((early.answer, early.session, early.block0), (0, FAILED, 0));
    if due != 0 {
        let late = end.cabinet.time_passed(&mut end.image, FAILED, due);
        assert_eq!((late.answer, late.session, late.block0), (0, Session::default(), 1));
    }
}

/// RFC 3479 adds no answer: an Init in the published form is turned away as one in the draft's is.
#[test]
fn the_answers_to_an_init_are_the_same_in_either_form() {
    let init = || Message::new(types::INITIALIZATION, 1);
    let in_both = |message: Message, reconnect: bool| {
        [message.clone().ft_session(reconnect, 5), message.ft_session_published(reconnect, 5_000)]
    };
    for cabinet in both() {
        let answers = |messages: [Message; 2]| {
            messages.map(|message| {
                let waiting = Session::new(phase::INIT_WAIT, 5_000);
                cabinet.init_received(&mut kept().image(0), waiting, &message.bytes()).answer
            })
        };
        assert_eq!(answers(in_both(init().ack(0), true)), [23; 2], "no parameters");
        assert_eq!(answers(in_both(init().parameters(30, 4096), true)), [23; 2], "no ACK");
        assert_eq!(answers(in_both(init().parameters(31, 4096).ack(9), true)), [35; 2]);
        assert_eq!(answers(in_both(init().parameters(30, 4096).ack(9), true)), [34; 2]);
        assert_eq!(answers(in_both(init().parameters(30, 4096).ack(0), true)), [0; 2]);
        assert_eq!(answers(in_both(init().parameters(31, 4096).ack(9), false)), [0; 2]);
    }
}

/// FT Session of either form on another message: ignored in UpFT, 31 in UpPlain, 5 where it is submitted.
#[test]
fn on_other_messages_either_form_is_an_ft_tlv() {
    for cabinet in both() {
        let address = || Message::new(types::ADDRESS, 1);
        let forms = [address().ft_session(true, 5), address().ft_session_published(true, 5_000)];
        for message in forms {
            let submitted = cabinet.submit(&mut kept().image(0), FAILED, &message.bytes());
            assert_eq!(submitted.answer, 5);
            let plain = Session::new(phase::UP_PLAIN, 0);
            assert_eq!(cabinet.receive(&mut Stored::idle().image(0), plain, &message.bytes()).answer, 31);
            let (mut image, up) = (kept().image(0), Session::new(phase::UP_FT, 0));
            assert_eq!(cabinet.receive(&mut image, up, &message.protection(10).bytes()).answer, 0);
            assert_eq!(Stored::read(&image).timeout, 5_000, "the agreed timeout stays");
        }
    }
}

/// Room of 50 is always enough, and one byte less is 9 where 50 are needed.
#[test]
fn exact_room() {
    for cabinet in both() {
        for (stored, opening, length) in
            [(Stored::idle(), DRAFT, 34), (kept(), DRAFT, 42), (Stored::idle(), PUBLISHED, 42), (kept(), PUBLISHED, 50)]
        {
            let session = if stored.kept { FAILED } else { Session::default() };
            let open = |room: usize| cabinet.open(&stored.image(0), session, &opening, &mut vec![0; room]);
            assert_eq!([open(length - 1).answer, open(length).answer, open(50).answer], [9, 0, 0]);
            assert_eq!(open(IMAGE_SIZE).length as usize, length);
        }
    }
}
