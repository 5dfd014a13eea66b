//! Send stores of Requests and their Aborts, in many orders.

use super::{messages, states};
use crate::random::Random;
use crate::stored::{Queued, Stored, NO_LABEL};
use crate::wire::{prefix, types, Message};

/// So many messages: Requests, each with its Abort before or behind it, and at times one of another kind among them.
pub fn queue(random: &mut Random, stored: &Stored, held: usize) -> Vec<Queued> {
    let ids: Vec<u32> = (0..held / 2).map(|_| states::id(random)).collect();
    let requests: Vec<Queued> = ids.iter().map(|id| request(random, *id)).collect();
    let others = random.pick(&[0, 0, 10]);
    let aborts: Vec<Queued> = ids.iter().map(|id| abort(random, *id, others)).collect();
    let order = random.below(6);
    let mut queue = match order {
        0 => requests.into_iter().chain(aborts.into_iter().rev()).collect(),
        1 => requests.into_iter().zip(aborts).flat_map(|(request, abort)| [request, abort]).collect(),
        2 => [aborts, requests].concat(),
        _ => [requests, aborts].concat(),
    };
    if order > 3 {
        random.shuffle(&mut queue);
    }
    queue.resize_with(held, || abort(random, 201, others));
    if held > 0 && random.percent(30) {
        queue[random.below(held)] = messages::queued(random, stored);
    }
    queue
}

fn request(random: &mut Random, id: u32) -> Queued {
    queued(random, 7, Message::new(types::REQUEST, id).fec(&prefix(id as u16)))
}

/// The Abort of a Request; in so many of a hundred cases of one with another ID.
fn abort(random: &mut Random, id: u32, others: usize) -> Queued {
    let aborted = if random.percent(others) { id.wrapping_add(1) } else { id };
    let own_id = random.pick(&[id, aborted, 0, 77]);
    queued(random, 8, Message::new(types::ABORT, own_id).fec(&prefix(id as u16)).request_id(aborted))
}

/// As its slot shows it: TLVs in any order, at times one that no paper lists, and bits that a reader ignores.
fn queued(random: &mut Random, kind: u8, message: Message) -> Queued {
    let length = random.pick(&[0, 0, 0, 60, 480]);
    let mut message = messages::shuffled(random, message.padded_to(length));
    if random.percent(20) {
        message = messages::with_ignored_bits(random, message);
    }
    Queued { kind, label: NO_LABEL, bytes: message.bytes() }
}
