//! Stored states that pass every check: numbers near wrap-around, empty and full rings, empty and full label lists.

use super::{fecs, messages, pairs};
use crate::random::Random;
use crate::stored::{steps_after, word, Stored, Version, ID_PLACES, PLACES, REQUEST, STOPPED, STOPPING};
use std::collections::HashSet;

const NUMBERS: [u32; 11] =
    [0, 0, 1, 2, 40, 0x7FFF_FFFF, 0x8000_0000, 0xFFFF_FFC0, 0xFFFF_FFF0, 0xFFFF_FFFE, 0xFFFF_FFFF];
const HELD: [usize; 12] = [0, 0, 0, 1, 1, 2, 3, 8, 30, 63, 64, 64];
/// How many words list a label; the last is more than version 2 has.
const LISTED: [usize; 11] = [0, 1, 2, 4, 10, 30, 90, 118, 118, 119, 120];
/// The codes of labels, and those of labels that we gave.
const CODES: [u32; 8] = [1, 2, 3, 4, 5, 6, 8, 9];
const OURS: [u32; 4] = [1, 2, 8, 9];
const OPEN: [usize; 9] = [0, 0, 0, 1, 2, 5, 20, 100, 120];
const SECONDS: [u16; 6] = [0, 0, 1, 5, 600, 65_535];
/// Those that are no whole seconds, or more than two bytes of seconds have room for.
const ODD_MILLISECONDS: [u32; 8] = [1, 5, 999, 1_001, 5_250, 65_535_001, 65_536_000, u32::MAX];

/// A number near the ends of the circle, or any.
pub fn number(random: &mut Random) -> u32 {
    if random.percent(85) {
        random.pick(&NUMBERS)
    } else {
        random.u32()
    }
}

pub fn seconds(random: &mut Random) -> u16 {
    if random.percent(80) {
        random.pick(&SECONDS)
    } else {
        random.u16()
    }
}

/// Milliseconds: whole seconds in most cases, which a peer of either form may have proposed.
pub fn milliseconds(random: &mut Random) -> u32 {
    match random.below(10) {
        0..=1 => random.pick(&ODD_MILLISECONDS),
        2 => random.u32(),
        _ => 1_000 * u32::from(seconds(random)),
    }
}

/// A label from a small range, so that sides and messages meet, or one at an end.
pub fn label(random: &mut Random) -> u32 {
    match random.below(20) {
        0 => 16,
        1 => 1_048_575,
        2 => random.between(16, 1_048_575) as u32,
        _ => random.between(17, 140) as u32,
    }
}

/// A message ID from a small range, so that messages and Requests meet, or one at an end.
pub fn id(random: &mut Random) -> u32 {
    match random.below(20) {
        0..=1 => 0,
        2 => u32::MAX,
        3 => random.u32(),
        _ => random.between(1, 200) as u32,
    }
}

/// A state, of version 1 at times.
pub fn any_version(random: &mut Random) -> Stored {
    if random.percent(6) {
        earlier(random)
    } else {
        state(random)
    }
}

/// A state, kept in most cases.
pub fn state(random: &mut Random) -> Stored {
    let timeout = milliseconds(random);
    of_version(random, Version::Two, timeout)
}

/// A state of version 1, whose last word is free in most cases.
pub fn earlier(random: &mut Random) -> Stored {
    let timeout = u32::from(seconds(random));
    let mut stored = of_version(random, Version::One, timeout);
    if random.percent(60) {
        stored.labels[PLACES] = 0;
    }
    stored
}

fn of_version(random: &mut Random, version: Version, timeout: u32) -> Stored {
    if random.percent(15) {
        let labels = vec![0; version.places()];
        let entries = fecs::entries(random, &labels);
        return Stored { version, labels, ids: left_over(random), entries, ..Stored::idle() };
    }
    let held = random.pick(&HELD);
    let numbered = match random.below(3) {
        0 => 0,
        1 => held,
        _ => random.between(0, held),
    };
    let released = number(random);
    let mut labels = label_list(random, version.places());
    let ids = open_requests(random, &mut labels);
    let entries = fecs::entries(random, &labels);
    let mut stored = Stored {
        version,
        released,
        issued: steps_after(released, numbered as u64),
        secured: number(random),
        first: random.pick(&[0, 0, 1, 32, 62, 63]),
        timeout,
        kept: true,
        marks: random.pick(&[0, 0, 0, STOPPED, STOPPING, STOPPED | STOPPING]),
        keepalive_time: random.pick(&[0, 30, 65_535]),
        max_pdu_length: random.pick(&[0, 4096, 65_535]),
        labels,
        ids,
        entries,
        queue: Vec::new(),
    };
    stored.queue = if random.percent(35) {
        pairs::queue(random, &stored, held)
    } else {
        (0..held).map(|_| messages::queued(random, &stored)).collect()
    };
    stored
}

/// A list of labels in places by chance, each once on a side.
fn label_list(random: &mut Random, length: usize) -> Vec<u32> {
    let mut places: Vec<usize> = (0..length).collect();
    let mut seen = HashSet::new();
    let mut list = vec![0; length];
    let listed = random.pick(&LISTED).min(length);
    while places.len() > length - listed {
        let code = random.pick(&CODES);
        let label = label(random);
        if seen.insert((label, OURS.contains(&code))) {
            let place = places.swap_remove(random.below(places.len()));
            list[place] = word(label, code);
        }
    }
    list
}

/// IDs that earlier Requests left, or none.
fn left_over(random: &mut Random) -> [u32; ID_PLACES] {
    let used = random.percent(60);
    std::array::from_fn(|_| if used { id(random) } else { 0 })
}

/// Opens Requests in some of the free words, each with an ID of its own, and gives all IDs.
fn open_requests(random: &mut Random, labels: &mut [u32]) -> [u32; ID_PLACES] {
    let mut ids = left_over(random);
    let mut free: Vec<usize> = (0..labels.len()).filter(|place| labels[*place] == 0).collect();
    let mut seen = HashSet::new();
    for _ in 0..random.pick(&OPEN).min(free.len()) {
        let place = free.swap_remove(random.below(free.len()));
        while !seen.insert(ids[place]) {
            ids[place] = id(random);
        }
        labels[place] = REQUEST;
    }
    ids
}
