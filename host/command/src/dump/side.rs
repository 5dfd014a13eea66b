//! One side of a connection whose bytes come line by line, some of them missing from the capture.

use support::wire::Arrived;

/// How a PDU begins: version 1, its length, and the LDP identifier of its sender.
const VERSION: [u8; 2] = [0, 1];
const SENDER: std::ops::Range<usize> = 4..10;

/// What has come of a side, and where it stands.
#[derive(Default)]
pub struct Side {
    pub arrived: Arrived,
    /// So many of the bytes that come next are of a PDU with a gap, and are passed over.
    of_gap: usize,
    /// It is not known where the next PDU starts: lines are passed over until one begins with a PDU.
    is_lost: bool,
    sender: Option<Vec<u8>>,
}

impl Side {
    pub fn add(&mut self, bytes: &[u8]) {
        let passed = self.of_gap.min(bytes.len());
        self.of_gap -= passed;
        let bytes = &bytes[passed..];
        if self.is_lost && !self.begins_pdu(bytes) {
            return;
        }
        self.is_lost = false;
        match bytes.get(SENDER) {
            Some(sender) if bytes.starts_with(&VERSION) && self.arrived.rest().is_empty() => {
                self.sender = Some(sender.to_vec());
            }
            _ => {}
        }
        self.arrived.add(bytes);
    }

    fn begins_pdu(&self, bytes: &[u8]) -> bool {
        let same = |sender: &Vec<u8>| bytes.get(SENDER) == Some(sender);
        bytes.starts_with(&VERSION) && self.sender.as_ref().is_none_or(same)
    }

    /// Some bytes are missing. True where they are of a PDU that has begun, so that it is known where the next one
    /// starts.
    pub fn miss(&mut self, missing: usize) -> bool {
        let left = match self.arrived.lacks() {
            Some(lacks) => Some(lacks),
            None if self.arrived.rest().is_empty() && self.of_gap > 0 => Some(self.of_gap),
            None => None,
        };
        self.arrived.drop_rest();
        self.of_gap = left.map_or(0, |left| left.saturating_sub(missing));
        let is_within = left.is_some_and(|left| missing <= left);
        self.is_lost |= !is_within;
        is_within
    }

    /// Gives up what has come of a line.
    pub fn drop_rest(&mut self) {
        self.arrived.drop_rest();
    }
}

#[cfg(test)]
mod tests {
    use super::*;
    use support::wire::{pdu, types, Message};

    /// A KeepAlive of 18 bytes from a sender.
    fn keepalive(lsr: u32, id: u32) -> Vec<u8> {
        pdu(lsr, &[Message::new(types::KEEPALIVE, id).bytes()])
    }

    fn next(side: &mut Side) -> Option<Vec<u8>> {
        side.arrived.next_pdu().map(<[u8]>::to_vec)
    }

    #[test]
    fn a_gap_within_a_pdu() {
        let (first, second) = (keepalive(1, 1), keepalive(1, 2));
        let mut side = Side::default();
        side.add(&first[..7]);
        assert!(side.miss(3));
        side.add(&first[10..12]);
        assert!(side.miss(4), "another gap of the same PDU");
        side.add(&[&first[16..], &second[..]].concat());
        assert_eq!((next(&mut side), next(&mut side)), (Some(second), None));
    }

    #[test]
    fn a_gap_up_to_the_end_of_a_pdu() {
        let (first, second) = (keepalive(1, 1), keepalive(1, 2));
        let mut side = Side::default();
        side.add(&first[..7]);
        assert!(side.miss(11));
        side.add(&second);
        assert_eq!(next(&mut side), Some(second));
    }

    /// After it lines are passed over that do not begin with a PDU of the same sender.
    #[test]
    fn a_gap_that_hides_where_the_next_pdu_starts() {
        for (known, missing) in [(0, 5), (3, 5), (7, 12)] {
            let (first, second) = (keepalive(1, 1), keepalive(1, 2));
            let mut side = Side::default();
            side.add(&first);
            assert_eq!(next(&mut side), Some(first.clone()));
            side.add(&first[..known]);
            assert!(!side.miss(missing), "{known}");
            side.add(&first[8..]);
            side.add(&keepalive(9, 9));
            assert_eq!(next(&mut side), None);
            side.add(&second);
            assert_eq!(next(&mut side), Some(second));
        }
    }
}
