//! The converter, as 02's fifth ticket has it: every answer, and the same bytes back and forth, on the library and on
//! the model.

use cabinet::{Cabinet, Converted, BLOCK_SIZE, FURTHER, IMAGE_SIZE, INDEX_BLOCKS, REQUEST_BLOCK};
use model::Model;
use trials::calls::{Call, Observed, Returned};
use trials::crafted::{asking, indexed, two_held};
use trials::differential::Run;
use trials::generate::states;
use trials::stored::{seal, word, Stored, Version, ENTRY_PLACES, ID_PLACES, REQUEST};
use trials::under_test::UnderTest;
use trials::wire::{types, Message};

const SEED: u64 = 0x1_D9F7;
const DONE: Converted = Converted { answer: 0, block: 0, length: IMAGE_SIZE as u32 };

fn run() -> Run<'static> {
    Run::new(&Model, &UnderTest, SEED)
}

fn other(version: Version) -> Version {
    match version {
        Version::One => Version::Two,
        Version::Two => Version::One,
    }
}

/// Moves an image from a version with so much room; library and model are compared.
fn seen(run: &mut Run, from: Version, image: &[u8], room: usize) -> (Converted, Observed) {
    let call = match from {
        Version::One => Call::ConvertForward { room },
        Version::Two => Call::ConvertBack { room },
    };
    let seen = run.call(image, &call).unwrap();
    let Returned::Converted(converted) = seen.returned else { panic!("the converter returns what it did") };
    (converted, seen)
}

/// The answer to an image of a version, and the block that it names.
fn answer(run: &mut Run, from: Version, image: &[u8]) -> (u32, u32) {
    let (Converted { answer, block, .. }, seen) = seen(run, from, image, IMAGE_SIZE);
    assert!(answer == 0 || seen.output.is_unwritten_after(0), "nothing is written on a refusal");
    (answer, block)
}

/// An image that can be moved, moved.
fn moved(run: &mut Run, from: Version, image: &[u8]) -> Vec<u8> {
    let (converted, seen) = seen(run, from, image, IMAGE_SIZE + 3);
    assert_eq!(converted, DONE);
    assert!(seen.output.is_unwritten_after(IMAGE_SIZE));
    assert_eq!(seen.image.content(), image, "the image given stays");
    seen.output.content()[..IMAGE_SIZE].to_vec()
}

/// Version 1 of a kept state, with the last of its 120 words as given.
fn earlier(last: u32) -> Stored {
    let mut stored = two_held().moved(Version::One).unwrap();
    stored.labels[119] = last;
    stored
}

fn kept_for(milliseconds: u32) -> Stored {
    Stored { timeout: milliseconds, ..two_held() }
}

/// Every sound state is moved to what the paper's words ask for, or is 16; and back to the same bytes.
#[test]
fn back_and_forth_gives_the_same_bytes_wherever_a_move_is_possible() {
    let mut run = run();
    let mut done = [0; 2];
    for round in 0..1_500 {
        let stored = if round % 2 == 0 { states::earlier(&mut run.random) } else { states::state(&mut run.random) };
        let (from, to) = (stored.version, other(stored.version));
        let image = stored.image(0xD1);
        let Some(due) = stored.moved(to) else {
            assert_eq!(answer(&mut run, from, &image), (16, 0));
            continue;
        };
        let there = moved(&mut run, from, &image);
        assert_eq!(there, due.image(0xD1));
        assert_eq!(there[BLOCK_SIZE..], image[BLOCK_SIZE..], "block 0 alone differs");
        assert_eq!(moved(&mut run, to, &there), image);
        done[round % 2] += 1;
    }
    assert!(done.iter().all(|count| *count > 200), "{done:?} moved each way");
}

/// "16, the last of the 120 label words in use going forward": whatever its code.
#[test]
fn the_last_of_120_words_bars_the_way_forward() {
    let mut run = run();
    for code in [1, 2, 3, 4, 5, 6, 8, 9] {
        assert_eq!(answer(&mut run, Version::One, &earlier(word(700, code)).image(0)), (16, 0), "code {code}");
    }
    assert_eq!(answer(&mut run, Version::One, &earlier(REQUEST).image(0)), (16, 0));
    assert_eq!(answer(&mut run, Version::One, &earlier(0).image(0)), (0, 0));
    let mut full = earlier(0);
    full.labels = (0..119).map(|place| word(100 + place, 3)).chain([0]).collect();
    let image = moved(&mut run, Version::One, &full.image(0));
    assert_eq!(Stored::read(&image).labels, full.labels[..119]);
}

/// ".. or a timeout that isn't whole seconds up to 65,535 going back".
#[test]
fn only_whole_seconds_up_to_65_535_go_back() {
    let mut run = run();
    for milliseconds in
        [1, 5, 999, 1_001, 5_250, 65_534_999, 65_535_001, 65_535_999, 65_536_000, 4_294_967_000, u32::MAX]
    {
        assert_eq!(answer(&mut run, Version::Two, &kept_for(milliseconds).image(0)), (16, 0), "{milliseconds}");
    }
    for seconds in (0..=65_535u32).step_by(257) {
        let image = moved(&mut run, Version::Two, &kept_for(1_000 * seconds).image(0));
        assert_eq!(Stored::read(&image), earlier_with(seconds));
    }
}

fn earlier_with(seconds: u32) -> Stored {
    Stored { timeout: seconds, ..earlier(0) }
}

/// "It comes after 10, 11 and 12, before 9": of several faults the first in this order is named.
#[test]
fn the_order_of_the_answers() {
    let mut run = run();
    for stored in [earlier(word(700, 3)), kept_for(5_250)] {
        let from = stored.version;
        let sound = stored.image(0xD1);
        assert_eq!(seen(&mut run, from, &sound, 0).0.answer, 16, "before 9");
        let mut image = sound.clone();
        for block in FURTHER.into_iter().rev() {
            image[block * BLOCK_SIZE + 490] = 1;
            assert_eq!(answer(&mut run, from, &image), (10, block as u32));
            seal(&mut image, block);
            assert_eq!(answer(&mut run, from, &image), (11, block as u32));
        }
        image[stored.block_of(1) * BLOCK_SIZE + 9] ^= 1;
        assert_eq!(answer(&mut run, from, &image), (10, stored.block_of(1) as u32));
        image[22] = 2;
        seal(&mut image, 0);
        assert_eq!(answer(&mut run, from, &image), (11, 0));
        image[511] ^= 1;
        assert_eq!(answer(&mut run, from, &image), (10, 0));
        image.pop();
        assert_eq!(seen(&mut run, from, &image, 0).0, Converted { answer: 12, block: 0, length: 0 });
    }
}

/// Exact room is enough; with less nothing is written.
#[test]
fn the_output_has_room_for_an_image() {
    let mut run = run();
    for stored in [earlier(0), two_held(), Stored::idle()] {
        for room in [0, 1, 511, 512, 33_280, IMAGE_SIZE - 1] {
            let (converted, seen) = seen(&mut run, stored.version, &stored.image(0), room);
            assert_eq!(converted, Converted { answer: 9, block: 0, length: 0 });
            assert!(seen.output.is_unwritten_after(0));
        }
        assert_eq!(seen(&mut run, stored.version, &stored.image(0), IMAGE_SIZE).0, DONE);
    }
}

/// It frees nothing and opens nothing: code 6, open Requests, what they left beside other words, and kept 0 move as
/// they are.
#[test]
fn what_is_moved_is_moved_as_it_is() {
    let mut run = run();
    let left_over = Stored { ids: [7; ID_PLACES], entries: [u64::MAX; ENTRY_PLACES], ..Stored::idle() };
    for stored in [two_held(), asking(), indexed(), Stored::idle(), left_over] {
        let there = moved(&mut run, Version::Two, &stored.image(0xD1));
        assert_eq!(Stored::read(&there), stored.moved(Version::One).unwrap());
        assert_eq!(moved(&mut run, Version::One, &there), stored.image(0xD1));
    }
    let stored = Stored::read(&moved(&mut run, Version::Two, &two_held().image(0)));
    assert_eq!(stored.labels[5], word(17, 6), "only restore frees it");
}

/// The ID at place 119 counts in version 1, beside its word; in version 2 it has none, and may be anything.
#[test]
fn the_last_id_counts_in_version_1_alone() {
    let mut run = run();
    let mut stored = asking().moved(Version::One).unwrap();
    (stored.labels[119], stored.ids[119]) = (REQUEST, 77);
    assert_eq!(answer(&mut run, Version::One, &stored.image(0)), (16, 0));
    stored.ids[119] = 5;
    assert_eq!(answer(&mut run, Version::One, &stored.image(0)), (11, REQUEST_BLOCK as u32), "5 is open twice");
    stored.labels[119] = 0;
    assert_eq!(answer(&mut run, Version::One, &stored.image(0)), (0, 0));
    for id in [0, 5, u32::MAX] {
        let mut later = asking();
        later.ids[119] = id;
        let image = later.image(0);
        assert_eq!(run.call(&image, &Call::Restore).unwrap().returned.answer(), 0);
        let open = run.call(&image, &Call::RequestAt { place: 119 }).unwrap();
        assert_eq!(open.returned.answer(), 1, "no Request at place 119");
        let again = moved(&mut run, Version::Two, &image);
        assert_eq!(moved(&mut run, Version::One, &again), image, "the ID stays");
    }
}

/// The entry at place 119 too.
#[test]
fn the_last_entry_counts_in_version_1_alone() {
    let mut run = run();
    let mut stored = indexed().moved(Version::One).unwrap();
    (stored.labels[119], stored.entries[119]) = (word(700, 1), 0);
    assert_eq!(answer(&mut run, Version::One, &stored.image(0)), (16, 0));
    stored.entries[119] = u64::MAX;
    assert_eq!(answer(&mut run, Version::One, &stored.image(0)), (11, INDEX_BLOCKS[1] as u32));
    stored.labels[119] = 0;
    let image = moved(&mut run, Version::One, &stored.image(0));
    assert_eq!(Stored::read(&image).entries, stored.entries, "it stays");
    assert_eq!(run.call(&image, &Call::Restore).unwrap().returned.answer(), 0);
    assert_eq!(run.call(&image, &Call::PrefixAt { place: 119 }).unwrap().returned.answer(), 1, "no prefix there");
}

/// The state before and after is the same, as every call shows it that reads an image.
#[test]
fn the_calls_show_the_same_after_a_move() {
    for cabinet in [&UnderTest as &dyn Cabinet, &Model] {
        let image = two_held().image(0xD1);
        let (mut earlier, mut again) = (vec![0; IMAGE_SIZE], vec![0; IMAGE_SIZE]);
        assert_eq!(cabinet.convert_back(&image, &mut earlier), DONE);
        assert_eq!(cabinet.summarize(&earlier).answer, 11);
        assert_eq!(cabinet.convert_forward(&earlier, &mut again), DONE);
        assert_eq!(cabinet.summarize(&again), cabinet.summarize(&image));
        assert_eq!(cabinet.summarize(&again).timeout, 5_000);
        let submitted =
            cabinet.submit(&mut again, cabinet::Session::new(4, 0), &Message::new(types::ADDRESS, 1).bytes());
        assert_eq!(submitted.answer, 0);
    }
}
