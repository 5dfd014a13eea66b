//! What an image holds, by the four calls that read it, held against the record from which the image was laid out.

use cabinet::{Part, Prefix, Summary, Words, IMAGE_SIZE, PLACES};
use model::Model;
use trials::calls::{Call, Returned};
use trials::crafted;
use trials::differential::Run;
use trials::generate::states;
use trials::stored::{steps_after, word_lists_label, Stored};
use trials::under_test::UnderTest;

const SEED: u64 = 0x1_D9F7;

fn run() -> Run<'static> {
    Run::new(&Model, &UnderTest, SEED)
}

/// Sound states: the crafted ones, and some by chance.
fn records(run: &mut Run) -> Vec<Stored> {
    let generated: Vec<Stored> = (0..300).map(|_| states::state(&mut run.random)).collect();
    crafted::sound().into_iter().chain(generated).collect()
}

fn used(stored: &Stored) -> u32 {
    stored.labels.iter().filter(|word| **word != 0).count() as u32
}

/// How many of the held have a number, counted step by step.
fn numbered(stored: &Stored) -> u32 {
    (0..=64).find(|steps| steps_after(stored.released, *steps) == stored.issued).unwrap() as u32
}

#[test]
fn the_summary_says_what_the_record_holds() {
    let mut run = run();
    for stored in records(&mut run) {
        let seen = run.call(&stored.image(0xD1), &Call::Summarize).unwrap();
        let held = stored.queue.len() as u32;
        let expected = Summary {
            answer: 0,
            block: 0,
            kept: u32::from(stored.kept),
            released: stored.released,
            issued: stored.issued,
            secured: stored.secured,
            held,
            pended: held - numbered(&stored),
            labels: used(&stored),
            timeout: stored.timeout,
            keepalive_time: u32::from(stored.keepalive_time),
            max_pdu_length: u32::from(stored.max_pdu_length),
            marks: u32::from(stored.marks),
        };
        assert_eq!(seen.returned, Returned::Summary(expected));
    }
}

#[test]
fn the_words_are_those_of_the_record_and_no_other_is_written() {
    let mut run = run();
    for stored in records(&mut run) {
        for room in [119, 120, 500] {
            let seen = run.call(&stored.image(0xD1), &Call::Labels { room }).unwrap();
            assert_eq!(seen.returned, Returned::Words(Words { answer: 0, block: 0, count: used(&stored) }));
            assert_eq!(seen.words.content()[..PLACES], stored.labels);
            assert!(seen.words.is_intact() && seen.words.is_unwritten_after(PLACES));
        }
    }
}

#[test]
fn too_few_words_are_refused_after_the_image_and_left_alone() {
    let mut run = run();
    let sound = crafted::two_held().image(0xD1);
    let mut unsound = sound.clone();
    unsound[600] ^= 1;
    for room in 0..PLACES {
        let seen = run.call(&sound, &Call::Labels { room }).unwrap();
        assert_eq!(seen.returned, Returned::Words(Words { answer: 9, block: 0, count: 0 }));
        assert!(seen.words.is_unwritten_after(0));
        let seen = run.call(&unsound, &Call::Labels { room }).unwrap();
        assert_eq!(seen.returned, Returned::Words(Words { answer: 10, block: 1, count: 0 }));
        let seen = run.call(&sound[..IMAGE_SIZE - 1], &Call::Labels { room }).unwrap();
        assert_eq!(seen.returned, Returned::Words(Words { answer: 12, block: 0, count: 0 }));
    }
}

#[test]
fn the_messages_held_are_those_of_the_record_from_the_oldest_on() {
    let mut run = run();
    for stored in records(&mut run) {
        let image = stored.image(0xD1);
        for (place, queued) in stored.queue.iter().enumerate() {
            let seen = run.call(&image, &Call::Held { place: place as u32 }).unwrap();
            let Returned::Part(part) = seen.returned else { panic!("held returns a part") };
            assert_eq!(part.answer, 0);
            assert_eq!(image[part.start as usize..part.end as usize], queued.bytes);
        }
        for place in [stored.queue.len() as u32, 64, 65, u32::MAX] {
            let seen = run.call(&image, &Call::Held { place }).unwrap();
            assert_eq!(seen.returned, Returned::Part(Part { answer: 8, start: 0, end: 0 }), "place {place}");
        }
    }
}

#[test]
fn the_prefixes_are_those_of_the_record_where_a_label_is_listed() {
    let mut run = run();
    let mut shown = 0;
    for stored in records(&mut run) {
        let image = stored.image(0xD1);
        for (place, word) in stored.labels.iter().enumerate() {
            let [is_prefix, length, _, _, prefix @ ..] = stored.entries[place].to_be_bytes();
            let expected = if word_lists_label(*word) && is_prefix == 1 {
                Prefix { indexed: 1, length: u32::from(length), prefix: u32::from_be_bytes(prefix) }
            } else {
                Prefix { indexed: 0, length: 0, prefix: 0 }
            };
            let seen = run.call(&image, &Call::PrefixAt { place: place as u32 }).unwrap();
            assert_eq!(seen.returned, Returned::Prefix(expected), "place {place}");
            shown += expected.indexed;
        }
        for place in [119, 120, u32::MAX] {
            let seen = run.call(&image, &Call::PrefixAt { place }).unwrap();
            assert_eq!(seen.returned, Returned::Prefix(Prefix::default()), "place {place}");
        }
    }
    assert!(shown > 1_000, "{shown} prefixes");
    let refused = run.call(&crafted::indexed().image(0)[..512], &Call::PrefixAt { place: 0 }).unwrap();
    assert_eq!(refused.returned, Returned::Prefix(Prefix::default()));
}
