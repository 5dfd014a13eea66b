//! Crafted images of both versions that every call must refuse, each with the answer and the block that is due. Images
//! of version 1 are given to the converter alone: every other call refuses them all.

use crate::calls::{Call, Returned};
use crate::differential::Run;
use crate::entries::entry;
use crate::generate::damage::{
    apply, FieldFault, ABORT_FAULTS, ADDRESS_FAULTS, ENTRY_FAULTS, IDLE_FAULTS, ID_FAULTS, KEPT_FAULTS, MAPPING_FAULTS,
    NO_RESOURCES_FAULTS, SECONDS_FAULTS, ZERO_FAULTS,
};
use crate::stored::{
    check, seal, word, Queued, Stored, Version, ENTRY_PLACES, ID_PLACES, NO_LABEL, REQUEST, STOPPED, STOPPING,
};
use crate::wire::{prefix, types, Message, NO_RESOURCES};
use cabinet::{
    phase, Converted, Opening, Part, Session, Summary, Words, FURTHER, IMAGE_SIZE, INDEX_BLOCKS, PLACES, REQUEST_BLOCK,
};

/// An image and how it is refused.
pub struct Crafted {
    pub why: String,
    pub image: Vec<u8>,
    /// The version by which it is refused.
    pub version: Version,
    pub kept: bool,
    pub answer: u32,
    pub block: u32,
}

impl Crafted {
    /// True where a call returned the refusal that is due, and nothing beside it.
    fn is_refused_by(&self, returned: Returned) -> bool {
        let (answer, block) = (self.answer, self.block);
        match returned {
            Returned::Outcome(outcome) => (outcome.answer, outcome.block) == (answer, block),
            Returned::Summary(summary) => summary == Summary { answer, block, ..Summary::default() },
            Returned::Words(words) => words == Words { answer, block, count: 0 },
            Returned::Part(part) => part == Part { answer, start: 0, end: 0 },
            Returned::Converted(converted) => converted == Converted { answer, block, length: 0 },
            returned => returned.answer() == 1,
        }
    }
}

/// A kept state with a Mapping in its first slot, an Address message in its second, and a ring that wraps.
pub fn two_held() -> Stored {
    let mapping = Message::new(types::MAPPING, 1).fec(&prefix(1)).label(16).padded_to(36).bytes();
    let address = Message::new(types::ADDRESS, 2).bytes();
    let mut stored = Stored {
        released: 0xFFFF_FFFE,
        issued: 0xFFFF_FFFF,
        secured: 7,
        first: 63,
        timeout: 5_000,
        kept: true,
        keepalive_time: 30,
        max_pdu_length: 4096,
        queue: vec![Queued { kind: 1, label: 16, bytes: mapping }, Queued { kind: 4, label: NO_LABEL, bytes: address }],
        ..Stored::idle()
    };
    stored.labels[0] = word(16, 1);
    stored.labels[5] = word(17, 6);
    stored
}

/// A kept state with four open Requests, that holds an Abort and then 'No label resources'; IDs of Requests that are
/// over are beside them, equal to an open one's, also at the place that has no word.
pub fn asking() -> Stored {
    let abort = Message::new(types::ABORT, 8).fec(&prefix(1)).request_id(4).bytes();
    let no_resources = Message::new(types::NOTIFICATION, 9).status_of(NO_RESOURCES, 77).bytes();
    let mut stored = Stored {
        kept: true,
        marks: STOPPED | STOPPING,
        queue: [(8, abort), (9, no_resources)].map(|(kind, bytes)| Queued { kind, label: NO_LABEL, bytes }).to_vec(),
        ..Stored::idle()
    };
    for (place, id) in [(0, 5), (1, 0), (2, u32::MAX), (118, 6)] {
        (stored.labels[place], stored.ids[place]) = (REQUEST, id);
    }
    stored.labels[60] = word(16, 1);
    (stored.ids[60], stored.ids[61], stored.ids[119]) = (5, 5, 5);
    stored
}

/// A kept state whose labels have every code and prefixes of every length, three of them the same; beside free words,
/// an open Request and the place that has no word there is what is no entry.
pub fn indexed() -> Stored {
    let codes = [1, 2, 3, 4, 5, 6, 8, 9];
    let mut stored = Stored { kept: true, entries: [u64::MAX; ENTRY_PLACES], ..Stored::idle() };
    for place in (0..PLACES).filter(|place| *place < 40 || *place > 57) {
        stored.labels[place] = word(100 + place as u32, codes[place % 8]);
        stored.entries[place] = entry((place % 33) as u8, 0x0A00_0000 + place as u32 * 0x0001_0101);
    }
    (stored.entries[0], stored.entries[3], stored.entries[118]) = (entry(8, 0), entry(8, 0), entry(8, 0));
    (stored.entries[1], stored.entries[60]) = (0, 0);
    (stored.labels[45], stored.ids[45]) = (REQUEST, 5);
    stored
}

/// Sound states that are near to being refused.
pub fn sound() -> Vec<Stored> {
    let marked = [0, STOPPED, STOPPING, STOPPED | STOPPING].map(|marks| Stored { marks, ..two_held() });
    let left_over = Stored { ids: [7; ID_PLACES], entries: [u64::MAX; ENTRY_PLACES], ..Stored::idle() };
    let for_long = Stored { timeout: u32::MAX, ..two_held() };
    marked.into_iter().chain([asking(), indexed(), Stored::idle(), left_over, for_long]).collect()
}

/// Every call that examines an image of a version, with inputs that a sound image would take.
pub fn calls_on_images(version: Version, kept: bool) -> Vec<Call> {
    match version {
        Version::One => vec![Call::ConvertForward { room: IMAGE_SIZE }],
        Version::Two => calls_on_version_2(kept),
    }
}

fn calls_on_version_2(kept: bool) -> Vec<Call> {
    let at = |when_kept, otherwise| Session::new(if kept { when_kept } else { otherwise }, 0);
    let up = at(phase::UP_FT, phase::UP_PLAIN);
    let down = at(phase::FAILED, phase::IDLE);
    let waiting = at(phase::INIT_WAIT, phase::INIT_WAIT);
    let init = Message::new(types::INITIALIZATION, 1).parameters(30, 4096).bytes();
    let address = Message::new(types::ADDRESS, 1).bytes();
    vec![
        Call::Restore,
        Call::Open { session: down, opening: Opening::default(), room: 64 },
        Call::InitReceived { session: waiting, msg: init },
        Call::ConnectionFailed { session: up },
        Call::TimePassed { session: down, elapsed: 5_000 },
        Call::Submit { session: down, msg: address.clone() },
        Call::SendNext { session: up, ack: true, room: 500 },
        Call::Keepalive { session: up, message_id: 1, room: 16 },
        Call::Receive { session: up, msg: address },
        Call::Label { place: 0 },
        Call::RequestAt { place: 0 },
        Call::PrefixAt { place: 0 },
        Call::Summarize,
        Call::Labels { room: PLACES },
        Call::Held { place: 0 },
        Call::ConvertBack { room: IMAGE_SIZE },
    ]
}

/// All crafted images.
pub fn images() -> Vec<Crafted> {
    [Version::One, Version::Two].into_iter().flat_map(images_of).collect()
}

/// A state of version 2 in a version that has room for it.
fn of(version: Version, stored: Stored) -> Stored {
    stored.moved(version).unwrap_or(stored)
}

/// The crafted images of a version.
fn images_of(version: Version) -> Vec<Crafted> {
    let states = [two_held(), asking(), indexed(), Stored::idle()];
    let [stored, asking, indexed, idle] = states.map(|stored| of(version, stored));
    let mut all = Vec::new();
    all.extend(with_field_faults(&stored, 0, KEPT_FAULTS));
    all.extend(with_field_faults(&idle, 0, IDLE_FAULTS));
    if version == Version::Two {
        all.extend([&stored, &idle].into_iter().flat_map(|stored| with_field_faults(stored, 0, SECONDS_FAULTS)));
    }
    all.extend(with_field_faults(&stored, stored.block_of(0), MAPPING_FAULTS));
    all.extend(with_field_faults(&stored, stored.block_of(1), ADDRESS_FAULTS));
    all.extend(with_field_faults(&asking, asking.block_of(0), ABORT_FAULTS));
    all.extend(with_field_faults(&asking, asking.block_of(1), NO_RESOURCES_FAULTS));
    all.extend(with_field_faults(&asking, REQUEST_BLOCK, ID_FAULTS));
    all.extend(INDEX_BLOCKS.into_iter().flat_map(|block| with_field_faults(&indexed, block, ENTRY_FAULTS)));
    for block in FURTHER {
        all.extend([&asking, &indexed, &idle].into_iter().flat_map(|s| with_field_faults(s, block, ZERO_FAULTS)));
    }
    all.extend(with_other_marks(&stored));
    all.extend(with_other_marks(&idle));
    all.extend(with_the_other_zero(&stored));
    all.extend(with_several_faults(&stored));
    all.extend(of_wrong_sizes(&stored));
    all
}

fn with_field_faults(stored: &Stored, block: usize, faults: &[FieldFault]) -> Vec<Crafted> {
    let crafted = |fault: &FieldFault| {
        let mut image = stored.image(0xD1);
        apply(&mut image, block, fault);
        refused(stored, format!("{}, {:?}", fault.name, stored.version), image, (11, block))
    };
    faults.iter().map(crafted).collect()
}

/// An image of the state that is refused with an answer and a block.
fn refused(stored: &Stored, why: String, image: Vec<u8>, (answer, block): (u32, usize)) -> Crafted {
    Crafted { why, image, version: stored.version, kept: stored.kept, answer, block: block as u32 }
}

/// Byte 23 with every value that it may not have.
fn with_other_marks(stored: &Stored) -> Vec<Crafted> {
    let known = if stored.kept { STOPPED | STOPPING } else { 0 };
    let crafted = |marks: u8| {
        let why = format!("byte 23 {marks}, kept {}, {:?}", stored.kept, stored.version);
        refused(stored, why, Stored { marks, ..stored.clone() }.image(0xD1), (11, 0))
    };
    (0..=u8::MAX).filter(|marks| marks & !known != 0).map(crafted).collect()
}

/// Blocks whose sum A or B is 0, by a fitting secured number, with 65,535 stored in its place.
fn with_the_other_zero(stored: &Stored) -> Vec<Crafted> {
    let mut block = stored.image(0xD1)[..512].to_vec();
    let mut sums_with = |secured: u32| {
        block[12..16].copy_from_slice(&secured.to_be_bytes());
        check(&block)
    };
    let mut with_zero_at = |at: usize| {
        let is_zero = |(a, b): (u16, u16)| (if at == 508 { a } else { b }) == 0;
        let secured = (0..65_535).find(|secured| is_zero(sums_with(*secured)))?;
        let mut image = Stored { secured, ..stored.clone() }.image(0xD1);
        image[at..at + 2].fill(0xFF);
        Some(refused(stored, format!("65,535 for 0 at {at}"), image, (10, 0)))
    };
    [508, 510].into_iter().filter_map(&mut with_zero_at).collect()
}

/// Bad further blocks one before the other and after a bad slot, two bad slots, a bad field before a bad block, a bad
/// block 0 before all: the first in order is named.
fn with_several_faults(stored: &Stored) -> Vec<Crafted> {
    let (first, second) = (stored.block_of(0), stored.block_of(1));
    let crafted =
        |why: &str, image: &[u8], answer, block| refused(stored, why.to_string(), image.to_vec(), (answer, block));
    let mut image = stored.image(0xD1);
    let mut all = Vec::new();
    for block in FURTHER.into_iter().rev() {
        image[block * 512 + 507] = 1;
        all.push(crafted("a further block before those behind it", &image, 10, block));
        seal(&mut image, block);
        all.push(crafted("its zeros before the blocks behind it", &image, 11, block));
    }
    image[second * 512] ^= 1;
    all.push(crafted("a bad slot before the further blocks", &image, 10, second));
    image[first * 512 + 2] = 9;
    all.push(crafted("two bad slots", &image, 10, first));
    seal(&mut image, first);
    all.push(crafted("a bad field before a bad block", &image, 11, first));
    image[22] = 2;
    all.push(crafted("a bad block 0 before slots", &image, 10, 0));
    seal(&mut image, 0);
    all.push(crafted("a bad field of block 0 before slots", &image, 11, 0));
    image.push(0);
    all.push(crafted("a wrong size before all", &image, 12, 0));
    all
}

fn of_wrong_sizes(stored: &Stored) -> Vec<Crafted> {
    let sizes = [0, 1, 511, 512, 33_280, 33_792, 34_304, 34_815, 34_817, 35_328, 69_632];
    let crafted = |size: usize| {
        let mut image = stored.image(0xD1);
        image.resize(size, 0);
        refused(stored, format!("size {size}"), image, (12, 0))
    };
    sizes.into_iter().map(crafted).collect()
}

/// Makes every call on a crafted image; each must refuse it in the same way and leave it alone.
pub fn check_refused(run: &mut Run, crafted: &Crafted) -> Result<(), String> {
    for call in calls_on_images(crafted.version, crafted.kept) {
        let seen = run.call(&crafted.image, &call).map_err(|difference| format!("{}: {difference:?}", crafted.why))?;
        if !crafted.is_refused_by(seen.returned) || seen.image.content() != crafted.image {
            return Err(format!("{}: {} returned {:?}", crafted.why, call.name(), seen.returned));
        }
    }
    Ok(())
}
