//! What the faults about the two forms of FT Session, and about version 2, do wrong.

use super::{put, replaced, Fault, Planted};
use cabinet::{Cabinet, Opening, Outcome, Session, IMAGE_SIZE};
use model::Model;
use trials::stored::{seal, Stored, Version};
use trials::wire::{parts, tlvs};

/// True where an open Request has the ID at the place that has no word.
pub fn repeats_dead_id(image: &[u8]) -> bool {
    let stored = Stored::read(image);
    stored.open_requests().contains(&stored.ids[119])
}

impl Planted {
    /// What open makes of what the owner gives.
    pub fn wrong_opening(&self, given: &Opening) -> Opening {
        let mut opening = *given;
        match self.0 {
            Fault::NeverOnDemand => opening.on_demand = false,
            Fault::WritesDraftForm => opening.published = false,
            Fault::ThirtyMilliseconds if given.published => opening.proposal = given.proposal.or(Some(30)),
            Fault::ProposalWraps if !given.published => opening.proposal = given.proposal.map(|all| all & 0xFFFF),
            _ => {}
        }
        opening
    }

    /// The message as this cabinet reads its FT Session: another type or value in its place.
    pub fn session_read_wrongly(&self, msg: &[u8]) -> Vec<u8> {
        let sound = Model.message_read(msg).answer == 0 || self.0 == Fault::TakesLength8;
        let Some((_, tlv)) = parts(msg).find(|(tlv_type, _)| *tlv_type == tlvs::FT_SESSION).filter(|_| sound) else {
            return msg.to_vec();
        };
        let value = &tlv[4..];
        let seconds = |value: &[u8]| [&[value[0], value[1], 0, 0, 0, 0][..], &value[2..4], &[0; 4]].concat();
        let (tlv_type, new) = match (self.0, value.len()) {
            (Fault::SecondsAreMilliseconds, 4) => (tlvs::FT_SESSION, seconds(value)),
            (Fault::IgnoresPublishedForm, 12) => (tlvs::UNLISTED, value.to_vec()),
            (Fault::TakesLength8, 8) => (tlvs::FT_SESSION, [value, &[0; 4]].concat()),
            (Fault::TakesSForR, 12) => (tlvs::FT_SESSION, [&[value[1] << 4], &value[1..]].concat()),
            (Fault::TakesRecoveryTime, 12) => (tlvs::FT_SESSION, [&value[..4], &value[8..], &[0; 4]].concat()),
            _ => return msg.to_vec(),
        };
        replaced(msg, tlv, tlv_type, &new)
    }

    /// The timeout that is agreed where an Init was taken.
    pub fn wrong_agreement(&self, before: &[u8], image: &mut [u8], given: Session, msg: &[u8]) {
        let place = Version::Two.timeout_at();
        match self.0 {
            Fault::LesserOfZeroIsZero => {
                let init = Model.message_read(msg);
                let theirs = init.timeout * if init.published == 1 { 1 } else { 1_000 };
                put(image, place.start, &given.value.min(theirs).to_be_bytes());
            }
            Fault::KeepsOldTimeout if before[22] == 1 => put(image, place.start, &before[place.clone()]),
            _ => {}
        }
    }

    /// Restore, where it refused a field of block 0.
    pub fn take_block0(&self, image: &mut [u8], outcome: &mut Outcome) {
        let mut mended = image.to_vec();
        match (self.0, Version::of(image)) {
            (Fault::SkipsBytes20, Some(Version::Two)) => {
                mended[20..22].fill(0);
                seal(&mut mended, 0);
                *outcome = Model.restore(&mut mended);
            }
            (Fault::RestoresVersion1, Some(Version::One)) => {
                let mut later = vec![0; IMAGE_SIZE];
                if Model.convert_forward(image, &mut later).answer == 0 {
                    *outcome = Outcome { block0: 1, ..Model.restore(&mut later) };
                    image.copy_from_slice(&later);
                }
            }
            _ => {}
        }
    }
}
