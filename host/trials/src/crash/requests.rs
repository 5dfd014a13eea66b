//! What the trial's own history says of Requests: which are open, and whether labels are to be had.

use crate::wire::{self, types, NO_RESOURCES, RESOURCES_AVAILABLE};
use std::collections::BTreeSet;

/// The IDs of the open Requests after a message was accepted for sending.
pub fn accepted(open: &mut BTreeSet<u32>, msg: &[u8]) {
    match wire::message_type(msg) {
        types::REQUEST => _ = open.insert(wire::message_id(msg)),
        types::ABORT => _ = wire::request_id(msg).map(|id| open.remove(&id)),
        _ => {}
    }
}

/// The IDs of the open Requests after a message was secured: a Mapping or a Notification that names one ends it.
pub fn secured(open: &mut BTreeSet<u32>, msg: &[u8]) {
    if let Some(id) = wire::answered(msg) {
        open.remove(&id);
    }
}

/// True where the last of the messages that speaks of label resources says that there are none.
pub fn tell_none(messages: &[Vec<u8>]) -> bool {
    let said = messages.iter().rev().filter(|msg| wire::message_type(msg) == types::NOTIFICATION);
    let mut codes = said.filter_map(|msg| wire::status(msg)).map(|status| status & 0x3FFF_FFFF);
    codes.find(|code| [NO_RESOURCES, RESOURCES_AVAILABLE].contains(code)) == Some(NO_RESOURCES)
}

/// The IDs of the Requests among the messages.
pub fn ids(messages: &[Vec<u8>]) -> Vec<u32> {
    let requests = messages.iter().filter(|msg| wire::message_type(msg) == types::REQUEST);
    requests.map(|msg| wire::message_id(msg)).collect()
}
