//! The library against the model, byte for byte, over generated calls and over every field of an image wrong in turn.

use cabinet::{Cabinet, FURTHER, IMAGE_SIZE};
use model::Model;
use trials::by_fec;
use trials::calls::{Call, Returned};
use trials::coverage::{INITS, UNMOVABLE};
use trials::crafted::{self, asking, calls_on_images, indexed, two_held};
use trials::differential::Run;
use trials::stored::{check, Stored, Version};
use trials::under_test::UnderTest;

const SEED: u64 = 0x1_D9F7;
const CALLS: u64 = 250_000;

#[test]
fn generated_calls_are_answered_alike_and_reach_every_answer() {
    let mut run = Run::new(&Model, &UnderTest, SEED);
    run.calls(CALLS).unwrap();
    println!("{}", run.coverage);
    assert_eq!(run.coverage.missing(), [], "answers that no call reached");
    assert_eq!(run.coverage.unexpected(), [], "answers that the call does not have");
    for (call, most) in [("receive", 63), ("next_number", 63), ("send_next", 32)] {
        for left_out in [0, 1, most] {
            assert!(run.coverage.left_out(call, left_out) > 0, "{call} with {left_out} left out");
        }
    }
    for init in INITS {
        assert!(run.coverage.inits(init) > 100, "Init of published {}, length {}", init.0, init.1);
    }
    for why in UNMOVABLE {
        assert!(run.coverage.unmovable(why) > 0, "16 for {why:?}");
    }
    for did in by_fec::all() {
        assert!(run.coverage.by_fec(did) > 0, "{did:?}");
    }
}

#[test]
fn every_call_refuses_every_crafted_image_in_its_way() {
    let mut run = Run::new(&Model, &UnderTest, SEED);
    let images = crafted::images();
    for image in &images {
        crafted::check_refused(&mut run, image).unwrap();
    }
    println!("{} crafted images, {} calls", images.len(), run.coverage.total());
}

#[test]
fn a_sound_image_is_refused_by_no_call() {
    for stored in crafted::sound() {
        for version in [Version::One, Version::Two] {
            let Some(stored) = stored.moved(version) else { continue };
            let mut run = Run::new(&Model, &UnderTest, SEED);
            for call in calls_on_images(version, stored.kept) {
                let answer = run.call(&stored.image(0xD1), &call).unwrap().returned.answer();
                assert!(!(10..=12).contains(&answer), "{} answered {answer}", call.name());
            }
        }
    }
}

/// 02: "version 2, the only one outside the converter": a sound image of the other version is 11 in block 0.
#[test]
fn a_sound_image_of_the_other_version_is_refused_by_every_call() {
    for stored in [two_held(), asking(), indexed(), Stored::idle()] {
        for (version, other) in [(Version::One, Version::Two), (Version::Two, Version::One)] {
            let image = stored.moved(other).unwrap().image(0xD1);
            let kept = stored.kept;
            let crafted = crafted::Crafted { why: format!("{other:?}"), image, version, kept, answer: 11, block: 0 };
            crafted::check_refused(&mut Run::new(&Model, &UnderTest, SEED), &crafted).unwrap();
        }
    }
}

/// Restore's answer and the block that it names.
fn restored(run: &mut Run, image: &[u8]) -> (u32, u32) {
    let Returned::Outcome(outcome) = run.call(image, &Call::Restore).unwrap().returned else {
        panic!("restore returns an outcome")
    };
    (outcome.answer, outcome.block)
}

#[test]
fn every_bit_of_a_live_block_is_checked_and_no_bit_of_a_dead_one() {
    let stored = two_held();
    let sound = stored.image(0xD1);
    for block in [0, stored.block_of(0), stored.block_of(1)].into_iter().chain(FURTHER) {
        for bit in (0..512 * 8).step_by(29) {
            let mut image = sound.clone();
            image[block * 512 + bit / 8] ^= 1 << (bit % 8);
            let mut run = Run::new(&Model, &UnderTest, bit as u64);
            assert_eq!(restored(&mut run, &image), (10, block as u32), "bit {bit} of block {block}");
        }
    }
    let mut image = sound;
    image[2 * 512..64 * 512].fill(0x77);
    let mut run = Run::new(&Model, &UnderTest, SEED);
    assert_eq!(run.call(&image, &Call::Restore).unwrap().returned.answer(), 0);
}

/// With kept 0 too the further blocks are looked at: their checks, and the zeros after their places.
#[test]
fn every_bit_of_the_further_blocks_is_checked_where_nothing_is_kept() {
    for (block, bit) in FURTHER.into_iter().flat_map(|block| (0..512 * 8).step_by(29).map(move |bit| (block, bit))) {
        let mut image = Stored::idle().image(0xD1);
        image[block * 512 + bit / 8] ^= 1 << (bit % 8);
        let mut run = Run::new(&Model, &UnderTest, bit as u64);
        assert_eq!(restored(&mut run, &image), (10, block as u32), "bit {bit}");
    }
}

#[test]
fn numbers_and_timeouts_agree_over_the_ends_of_their_ranges() {
    let ends: Vec<u32> = [0u32, 0x7FFF_FFFF, 0x8000_0000, 0xFFFF_FFFF]
        .iter()
        .flat_map(|end| (0..6).flat_map(move |by| [end.wrapping_add(by), end.wrapping_sub(by)]))
        .collect();
    let mut run = Run::new(&Model, &UnderTest, SEED);
    for a in &ends {
        run.call(&[], &Call::Successor { number: *a }).unwrap();
        for b in &ends {
            run.call(&[], &Call::Distance { from: *a, to: *b }).unwrap();
            for resumed in [true, false] {
                run.call(&[], &Call::NextNumber { secured: *a, number: *b, resumed }).unwrap();
            }
            run.call(&[], &Call::LesserTimeout { a: *a, b: *b }).unwrap();
        }
    }
}

#[test]
fn the_check_agrees_with_the_paper_word_by_word() {
    let mut run = Run::new(&Model, &UnderTest, SEED);
    for round in 0..2_000 {
        let mut block = run.random.bytes(512);
        block[..(round % 509)].fill(if round % 3 == 0 { 0xFF } else { 0 });
        let seen = run.call(&[], &Call::BlockCheck { block: block.clone() }).unwrap();
        let (a, b) = check(&block);
        let expected = u32::from(a) << 16 | u32::from(b);
        assert_eq!(seen.returned, Returned::NumberOrRefused(expected));
    }
}

#[test]
fn a_new_image_is_the_same_from_any_bytes() {
    let mut run = Run::new(&Model, &UnderTest, SEED);
    let junk = run.random.bytes(IMAGE_SIZE);
    let seen = run.call(&junk, &Call::Format).unwrap();
    assert_eq!(seen.image.content(), Stored::idle().image(0));
    assert_eq!(UnderTest.restore(&mut seen.image.content().to_vec()).answer, 0);
}
