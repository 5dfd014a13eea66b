//! The rules for prefixes, one by one as 02's sixth ticket has them, on the library and on the model.

use cabinet::{further, phase, Cabinet, Outcome, Session, PLACES};
use model::Model;
use trials::entries::{entry, entry_of, fec, NO_ENTRY};
use trials::stored::{word, Queued, Stored, REQUEST};
use trials::under_test::UnderTest;
use trials::wire::{types, Message, WILDCARD};

const UP: Session = Session::new(phase::UP_FT, 0);
const LABEL: u32 = 700;
const TEN: u32 = 0x0A00_0000;

fn both() -> [&'static dyn Cabinet; 2] {
    [&UnderTest, &Model]
}

/// A kept state that has secured 10, with words and entries at some places.
fn listing(places: &[(usize, u32, u64)]) -> Stored {
    let mut stored = Stored { secured: 10, kept: true, ..Stored::idle() };
    for (place, word, entry) in places {
        (stored.labels[*place], stored.entries[*place]) = (*word, *entry);
    }
    stored
}

/// The same with every other word in use.
fn full(places: &[(usize, u32, u64)]) -> Stored {
    let mut stored = listing(places);
    for (place, word) in stored.labels.iter_mut().enumerate().filter(|(_, word)| **word == 0) {
        *word = trials::stored::word(1_000 + place as u32, 3);
    }
    stored
}

fn mapping(label: u32, fec: &[u8]) -> Message {
    Message::new(types::MAPPING, 1).fec(fec).label(label)
}

/// A call of library and model on an image: the same outcome and the same bytes.
fn on_both(stored: &Stored, call: impl Fn(&dyn Cabinet, &mut [u8]) -> Outcome) -> (Outcome, Stored) {
    let results = both().map(|cabinet| {
        let mut image = stored.image(0);
        (call(cabinet, &mut image), image)
    });
    assert_eq!(results[0], results[1]);
    let [(outcome, image), _] = results;
    (outcome, Stored::read(&image))
}

/// A message is received, with the number that is due or without one.
fn received(stored: &Stored, message: &Message, protected: bool) -> (Outcome, Stored) {
    let message = if protected { message.clone().protection(11) } else { message.clone() };
    on_both(stored, |cabinet, image| cabinet.receive(image, UP, &message.bytes()))
}

/// A message that is taken; what is stored afterwards.
fn taken(stored: &Stored, message: &Message, protected: bool) -> Stored {
    let (outcome, after) = received(stored, message, protected);
    assert_eq!((outcome.answer, outcome.session), (0, UP), "{message:?}");
    after
}

fn submitted(stored: &Stored, message: &Message) -> (Outcome, Stored) {
    on_both(stored, |cabinet, image| cabinet.submit(image, UP, &message.bytes()))
}

/// "Only a FEC of one well-formed IPv4 prefix element is indexed": each FEC with the entry that it has.
fn fecs() -> Vec<(Vec<u8>, u64)> {
    let right = (0..=32).map(|length| (fec(length, 0xFFFF_FFFF), entry(length, 0xFFFF_FFFF)));
    let wrong: [&[u8]; 16] = [
        &[],
        &[1],
        &[2],
        &[2, 0, 1],
        &[2, 0, 1, 33, 10, 0, 0, 0, 0],
        &[2, 0, 1, 255],
        &[2, 0, 1, 8],
        &[2, 0, 1, 8, 10, 0],
        &[2, 0, 1, 0, 0],
        &[2, 0, 1, 32, 10, 0, 0],
        &[2, 0, 1, 8, 10, 2, 0, 1, 8, 10],
        &[1, 2, 0, 1, 8, 10],
        &[2, 0, 2, 8, 10],
        &[2, 1, 1, 8, 10],
        &[3, 0, 1, 4, 10, 0, 0, 1],
        &[2, 0, 1, 4, 10, 0, 0, 1],
    ];
    right.chain(wrong.map(|fec| (fec.to_vec(), NO_ENTRY))).collect()
}

#[test]
fn a_mapping_writes_the_entry_of_its_fec() {
    for (fec, entry) in fecs() {
        let before = Stored { entries: [u64::MAX; 120], ..listing(&[]) };
        for after in [submitted(&before, &mapping(LABEL, &fec)).1, taken(&before, &mapping(LABEL, &fec), true)] {
            assert_eq!((after.labels[0] & 0xF_FFFF, after.entries[0]), (LABEL, entry), "{fec:?}");
            assert_eq!(after.entries[1..], before.entries[1..], "no other");
        }
        assert_eq!(entry_of(&fec), entry);
    }
}

/// "1, length, two zeros, prefix with zeros past its length", by the bytes; 60 places in block 66, then those of block
/// 67.
#[test]
fn an_entry_stands_at_its_place_by_its_bytes() {
    for (place, at, bit) in [(0, 66 * 512, 2), (59, 66 * 512 + 472, 2), (60, 67 * 512, 4), (118, 67 * 512 + 464, 4)] {
        let mut stored = full(&[]);
        stored.labels[place] = 0;
        for cabinet in both() {
            let mut image = stored.image(0);
            let outcome =
                cabinet.receive(&mut image, UP, &mapping(LABEL, &fec(12, 0x0AFF_FFFF)).protection(11).bytes());
            assert_eq!((outcome.answer, outcome.further), (0, bit));
            assert_eq!(image[at..at + 8], [1, 12, 0, 0, 0x0A, 0xF0, 0, 0]);
            let shown = cabinet.prefix_at(&image, place as u32);
            assert_eq!((shown.indexed, shown.length, shown.prefix), (1, 12, 0x0AF0_0000));
        }
    }
}

/// Labels of a prefix under every code, of the same under another length, and of other FECs.
fn many() -> Stored {
    let mut stored = listing(&[]);
    for (n, code) in [1, 2, 3, 4, 5, 6, 8, 9].into_iter().enumerate() {
        for (place, entry) in [(n, entry(8, TEN)), (30 + n, entry(9, TEN)), (90 + n, NO_ENTRY)] {
            (stored.labels[place], stored.entries[place]) = (word(100 + place as u32, code), entry);
        }
    }
    // a free word and an open Request of the prefix
    (stored.entries[20], stored.entries[21]) = (entry(8, TEN), entry(8, TEN));
    (stored.labels[21], stored.ids[21]) = (REQUEST, 5);
    stored
}

/// The codes of the first eight words after a message, all others must be as before.
fn codes_after(message: &Message) -> Vec<u32> {
    let (before, after) = (many(), taken(&many(), message, true));
    assert_eq!(after.labels[8..], before.labels[8..], "{message:?}");
    assert_eq!(after.entries, before.entries, "entries stay");
    after.labels[..8].iter().map(|word| word >> 20).collect()
}

/// "FEC-only Withdraw and Release then act on exactly the labels of that prefix", each by its table; bits past the
/// length are masked.
#[test]
fn a_prefix_without_a_label_acts_on_exactly_its_labels() {
    for bits in [TEN, 0x0AFF_FFFF] {
        let withdraw = Message::new(types::WITHDRAW, 1).fec(&fec(8, bits));
        assert_eq!(codes_after(&withdraw), [1, 2, 4, 4, 5, 0, 8, 9]);
        let release = Message::new(types::RELEASE, 1).fec(&fec(8, bits));
        assert_eq!(codes_after(&release), [0, 9, 3, 4, 5, 6, 0, 9]);
    }
}

#[test]
fn a_prefix_of_no_label_and_other_fecs_change_nothing() {
    let others = [fec(8, 0x0B00_0000), fec(7, TEN), fec(10, TEN), fec(32, TEN), fec(0, 0), vec![], vec![1, 1]];
    for (fec, message_type) in others.iter().flat_map(|fec| [types::WITHDRAW, types::RELEASE].map(|t| (fec, t))) {
        let message = Message::new(message_type, 1).fec(fec);
        assert_eq!(codes_after(&message), [1, 2, 3, 4, 5, 6, 8, 9], "{fec:?}");
        assert_eq!(taken(&many(), &message, false).labels, many().labels, "nor is it 33");
    }
}

/// The wildcard still acts on all.
#[test]
fn the_wildcard_acts_on_every_label_whatever_its_entry() {
    let after = taken(&many(), &Message::new(types::WITHDRAW, 1).fec(WILDCARD), true);
    for start in [0, 30, 90] {
        let codes: Vec<u32> = after.labels[start..start + 8].iter().map(|word| word >> 20).collect();
        assert_eq!(codes, [1, 2, 4, 4, 5, 0, 8, 9]);
    }
}

/// Length 0 is one prefix among others, and not all of them.
#[test]
fn length_0_and_32_are_prefixes_like_others() {
    let stored = listing(&[
        (0, word(16, 3), entry(0, 0)),
        (1, word(17, 3), entry(32, 0)),
        (2, word(18, 3), entry(32, u32::MAX)),
        (3, word(19, 3), NO_ENTRY),
    ]);
    for (reached, value) in [fec(0, 0), fec(32, 0), fec(32, u32::MAX)].iter().enumerate() {
        let after = taken(&stored, &Message::new(types::WITHDRAW, 1).fec(value), true);
        let codes: Vec<u32> = after.labels[..4].iter().map(|word| word >> 20).collect();
        let expected: Vec<u32> = (0..4).map(|place| if place == reached { 4 } else { 3 }).collect();
        assert_eq!(codes, expected);
    }
}

/// ".. which 33 reads as touched"; 32 needs a named label, so a protected one frees code 6 words too.
#[test]
fn protection_under_a_prefix() {
    let both_sides = |code| listing(&[(0, word(16, 6), entry(8, TEN)), (1, word(17, code), entry(8, TEN))]);
    let about = |message_type| Message::new(message_type, 1).fec(&fec(8, TEN));
    for code in [3, 4, 5] {
        assert_eq!(received(&both_sides(code), &about(types::WITHDRAW), false).0.answer, 33);
        assert_eq!(taken(&both_sides(code), &about(types::WITHDRAW), true).labels[0], 0);
        assert_eq!(taken(&both_sides(code), &about(types::RELEASE), false).labels, both_sides(code).labels);
    }
    for code in [1, 2, 8, 9] {
        assert_eq!(received(&both_sides(code), &about(types::RELEASE), false).0.answer, 33);
        assert_eq!(taken(&both_sides(code), &about(types::WITHDRAW), false).labels[0], 0, "code 6 alone is touched");
    }
}

/// Beside a Label TLV the named label alone counts, and its FEC is not compared.
#[test]
fn a_named_label_counts_alone() {
    let stored =
        listing(&[(0, word(16, 3), entry(8, TEN)), (1, word(17, 3), entry(8, TEN)), (2, word(16, 1), NO_ENTRY)]);
    for value in [fec(8, TEN), fec(9, TEN), vec![], WILDCARD.to_vec()] {
        let after = taken(&stored, &Message::new(types::WITHDRAW, 1).fec(&value).label(16), true);
        assert_eq!(after.labels[..3], [word(16, 4), word(17, 3), word(16, 1)]);
        let after = taken(&stored, &Message::new(types::RELEASE, 1).fec(&value).label(16), true);
        assert_eq!(after.labels[..3], [word(16, 3), word(17, 3), 0]);
    }
}

/// "A received Mapping that would change a listed label's entry moves it, with 01's code, to a new word": to the first
/// that is free; the old word is free, its entry stays.
#[test]
fn a_mapping_with_another_entry_moves_its_label() {
    for (code, next, protected) in [(3, 3, true), (4, 4, true), (5, 3, true), (6, 6, false)] {
        for (old, new) in [(entry(8, TEN), fec(9, TEN)), (entry(8, TEN), vec![]), (NO_ENTRY, fec(0, 0))] {
            let stored = listing(&[(0, word(16, 3), 0), (4, word(LABEL, code), old), (2, word(LABEL, 1), old)]);
            let (outcome, after) = received(&stored, &mapping(LABEL, &new), protected);
            assert_eq!((outcome.answer, outcome.block0), (0, 1));
            assert_eq!(outcome.further, if entry_of(&new) == NO_ENTRY { 0 } else { further::INDEX[0] });
            let words = [word(16, 3), word(LABEL, next), word(LABEL, 1), 0, 0];
            assert_eq!(after.labels[..5], words, "our own label of that number is another");
            assert_eq!((after.entries[1], after.entries[4], after.entries[2]), (entry_of(&new), old, old));
        }
    }
}

/// The entry is that of the message's own side: one label on both sides has two.
#[test]
fn a_mapping_with_the_entry_that_the_label_has_moves_nothing() {
    for (code, next, protected) in [(3, 3, true), (4, 4, true), (5, 3, true), (6, 6, false)] {
        for value in [fec(8, TEN), fec(8, 0x0A12_3456)] {
            let stored = listing(&[(2, word(LABEL, 1), NO_ENTRY), (4, word(LABEL, code), entry(8, TEN))]);
            let after = taken(&stored, &mapping(LABEL, &value), protected);
            assert_eq!(after.labels[..5], [0, 0, word(LABEL, 1), 0, word(LABEL, next)]);
            assert_eq!(after.entries, stored.entries);
        }
        let two_others = listing(&[(4, word(LABEL, code), NO_ENTRY)]);
        let after = taken(&two_others, &mapping(LABEL, &[1, 1]), protected);
        assert_eq!(after.labels[..5], [0, 0, 0, 0, word(LABEL, next)], "two FECs that are no prefix have one entry");
    }
}

/// 21 where the label would have to move and no word is free; without the move none is needed.
#[test]
fn a_label_that_moves_needs_a_word() {
    for (code, protected) in [(3, true), (4, true), (5, true), (6, false)] {
        let stored = full(&[(4, word(LABEL, code), entry(8, TEN))]);
        let (outcome, after) = received(&stored, &mapping(LABEL, &fec(9, TEN)), protected);
        assert_eq!((outcome.answer, outcome.session, outcome.further), (21, Session::new(phase::FAILED, 0), 0));
        assert_eq!(after, stored.clone().after_break());
        assert_eq!(received(&stored, &mapping(LABEL, &fec(8, TEN)), protected).0.answer, 0);
    }
}

/// "A Mapping takes its Request's word": also one that moves its label, in a full list too; one that does not frees the
/// word.
#[test]
fn a_label_moves_to_the_word_of_the_request_that_is_answered() {
    for (code, next, protected) in [(3, 3, true), (4, 4, true), (5, 3, true), (6, 6, false)] {
        for stored in [listing(&[]), full(&[])] {
            let mut stored = stored;
            (stored.labels[4], stored.entries[4]) = (word(LABEL, code), entry(8, TEN));
            (stored.labels[70], stored.ids[70]) = (REQUEST, 40);
            let moved = taken(&stored, &mapping(LABEL, &fec(9, TEN)).request_id(40), protected);
            assert_eq!((moved.labels[4], moved.labels[70]), (0, word(LABEL, next)));
            assert_eq!((moved.entries[70], moved.ids[70]), (entry(9, TEN), 40));
            let stays = taken(&stored, &mapping(LABEL, &fec(8, TEN)).request_id(40), protected);
            assert_eq!((stays.labels[4], stays.labels[70]), (word(LABEL, next), 0));
            assert_eq!(stays.entries, stored.entries);
        }
    }
}

/// A state that holds a Release of 800 with a number, whose ACK frees the first word.
fn releasing(places: &[(usize, u32, u64)]) -> Stored {
    let bytes = Message::new(types::RELEASE, 1).fec(&fec(8, TEN)).label(800).bytes();
    let mut stored = full(places);
    stored.labels[0] = word(800, 5);
    Stored { issued: 1, queue: vec![Queued { kind: 3, label: 800, bytes }], ..stored }
}

/// "the first that is free in the old block 0 too": a word that this very ACK frees is not taken, nor is the one that
/// the move frees.
#[test]
fn a_word_that_the_call_itself_frees_is_not_taken() {
    let new = mapping(LABEL, &fec(9, TEN)).ack(1);
    assert_eq!(received(&releasing(&[]), &new, true).0.answer, 21);
    let moves = releasing(&[(4, word(LABEL, 3), entry(8, TEN))]);
    assert_eq!(received(&moves, &new, true).0.answer, 21);
    let mut with_room = moves;
    with_room.labels[90] = 0;
    let after = taken(&with_room, &new, true);
    assert_eq!((after.labels[0], after.labels[4], after.labels[90]), (0, 0, word(LABEL, 3)));
    // the label itself was let go by the ACK: it is absent, and takes a word that was free before
    let mut itself = releasing(&[]);
    itself.labels[90] = 0;
    let (outcome, after) = received(&itself, &mapping(800, &fec(8, TEN)).ack(1), true);
    assert_eq!((outcome.answer, after.labels[0], after.labels[90]), (0, 0, word(800, 3)));
}

/// "6 for submitting such a Mapping"; Withdraw and Release are not asked for the FEC, and without a label they are
/// still 5.
#[test]
fn a_submitted_mapping_may_not_change_the_entry() {
    let stored = listing(&[(3, word(LABEL, 1), entry(8, TEN)), (5, word(LABEL, 3), NO_ENTRY)]);
    for (value, answer) in [(fec(8, TEN), 0), (fec(8, 0x0A01_0000), 0), (fec(9, TEN), 6), (vec![], 6), (fec(8, 0), 6)] {
        let (outcome, after) = submitted(&stored, &mapping(LABEL, &value));
        assert_eq!((outcome.answer, outcome.further), (answer, 0), "{value:?}");
        assert_eq!((after.labels, after.entries), (stored.labels.clone(), stored.entries));
    }
    let withdraw = Message::new(types::WITHDRAW, 1).fec(&fec(9, TEN)).label(LABEL);
    assert_eq!(submitted(&stored, &withdraw).1.labels[3], word(LABEL, 2));
    let release = Message::new(types::RELEASE, 1).fec(&fec(9, TEN)).label(LABEL);
    assert_eq!(submitted(&stored, &release).1.labels[5], word(LABEL, 5));
    for message_type in [types::WITHDRAW, types::RELEASE] {
        assert_eq!(submitted(&stored, &Message::new(message_type, 1).fec(&fec(8, TEN))).0.answer, 5);
    }
}

/// An entry that does not count is no obstacle: what stands beside a free word is written over, and block 0 tells what
/// counts.
#[test]
fn what_earlier_labels_left_does_not_count() {
    let mut stored = listing(&[(1, REQUEST, entry(8, TEN)), (2, word(17, 3), entry(8, TEN))]);
    stored.entries[0] = entry(8, TEN);
    for cabinet in both() {
        let shown = [0, 1, 2].map(|place| cabinet.prefix_at(&stored.image(0), place).indexed);
        assert_eq!(shown, [0, 0, 1]);
    }
    let after = taken(&stored, &Message::new(types::WITHDRAW, 1).fec(&fec(8, TEN)), true);
    assert_eq!(after.labels[..3], [0, REQUEST, word(17, 4)]);
    let (outcome, after) = received(&stored, &mapping(LABEL, &fec(8, TEN)), true);
    assert_eq!(
        (outcome.answer, outcome.further, after.labels[0]),
        (0, 0, word(LABEL, 3)),
        "the entry is there already"
    );
    assert_eq!(after.labels.len(), PLACES);
}

/// A label below 16 takes no word and writes no entry; the Request that its Mapping answers ends.
#[test]
fn a_label_below_16_has_no_entry() {
    let mut stored = listing(&[(70, REQUEST, 0)]);
    stored.ids[70] = 40;
    let (outcome, after) = received(&stored, &mapping(15, &fec(8, TEN)).request_id(40), true);
    assert_eq!((outcome.answer, outcome.further, after.labels[70]), (0, 0, 0));
    assert_eq!(after.entries, stored.entries);
}
