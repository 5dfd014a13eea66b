//! What the trial's own history says of messages left out: marked when a Send passes over them, and never sent again.

use super::end::{Done, End};
use super::require;
use crate::stored::{steps_after, Stored};
use crate::wire::{protection_number, without_ft};

impl End<'_> {
    /// Notes a Send that was made, with what was stored and how many were sent before it: those passed over are marked,
    /// and the message written is the next of the others, with the number of its place.
    pub fn note_sent(&mut self, before: &Stored, sent: u32, done: &Done) -> Result<(), String> {
        let left_out = done.outcome.left_out;
        let told = left_out as usize == before.left_out_from(sent as usize);
        require(told, "what was left out is not what an Abort behind it undoes")?;
        let counted = done.outcome.session.value == sent + left_out + 1;
        require(counted, "the count sent has not grown by one and those left out")?;
        let first = self.accepted.len() - before.queue.len() + sent as usize;
        let place = first + left_out as usize;
        require(!self.left_out.contains(&place), "a message that was left out is sent")?;
        self.left_out.extend(first..place);
        let number = steps_after(self.base, place as u64 + 1);
        require(protection_number(&done.output) == Some(number), "a message does not have the number of its place")?;
        require(self.accepted.get(place) == Some(&without_ft(&done.output)), "another message is sent than is due")
    }
}
