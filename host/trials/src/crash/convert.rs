//! An owner moves its store to version 1 and forward again, as a fitter does who puts an earlier release in and then a later
//! one. Block 0 alone is stored each time, and the power may be cut before and after.

use super::demand::check_undone;
use super::end::End;
use super::require;
use super::tally::Cut;
use super::world::{text, World};
use crate::calls::{invoke, Call, Lent, Returned};
use crate::stored::{Stored, Version};
use cabinet::{BLOCK_SIZE, IMAGE_SIZE};

impl End<'_> {
    /// Moves what is stored: the image in the other version, or none where it cannot be moved.
    fn converted(&self, call: &Call) -> Result<Option<Vec<u8>>, String> {
        let before = self.store.read().map_err(text)?;
        let (mut image, mut out) = (before.clone(), vec![0; IMAGE_SIZE]);
        let lent = Lent { image: &mut image, input: &[], out: &mut out, words: &mut [] };
        let answer = match invoke(self.cabinet, call, lent) {
            Returned::Converted(converted) => converted.answer,
            other => return Err(format!("{} returned {other:?}", call.name())),
        };
        require(image == before, "the image given was changed")?;
        if answer == 16 {
            return Ok(None);
        }
        require(answer == 0, &format!("{} answered {answer}", call.name()))?;
        require(out[BLOCK_SIZE..] == before[BLOCK_SIZE..], "another block than 0 differs")?;
        Ok(Some(out))
    }
}

impl World<'_, '_> {
    /// The power goes, the store is moved to version 1, and forward again at power-up: nothing is lost.
    pub fn convert(&mut self, end: usize) -> Result<(), String> {
        let before = self.ends[end].image.clone();
        let due = Stored::read(&before).moved(Version::One);
        let back = Call::ConvertBack { room: IMAGE_SIZE };
        let earlier = self.ends[end].converted(&back)?;
        let as_due = earlier.as_ref().map(|image| Stored::read(image)) == due;
        require(as_due, "the image in version 1 is not what the state asks for")?;
        match earlier {
            Some(earlier) if !self.is_cut(&back, Cut::Nothing) => {
                self.ends[end].store.write_block(&earlier, 0).map_err(text)?;
                self.tally.moved_back += 1;
                self.is_cut(&back, Cut::All);
            }
            Some(_) => {}
            None => self.tally.unmovable += 1,
        }
        self.restart(end)?;
        check_undone(&before, &self.ends[end].image)
    }

    /// What an owner does before restore: an image of version 1 is moved forward. A cut before block 0 is stored leaves it
    /// to be moved at the next power-up.
    pub fn move_forward(&mut self, end: usize) -> Result<(), String> {
        let forward = Call::ConvertForward { room: IMAGE_SIZE };
        while Version::of(&self.ends[end].store.read().map_err(text)?) == Some(Version::One) {
            let later = self.ends[end].converted(&forward)?.ok_or("what was moved back is not moved forward")?;
            if self.is_cut(&forward, Cut::Nothing) {
                continue;
            }
            self.ends[end].store.write_block(&later, 0).map_err(text)?;
            self.tally.moved_forward += 1;
            self.is_cut(&forward, Cut::All);
        }
        Ok(())
    }

    /// True where the power is cut at this point of a move, which is then noted.
    fn is_cut(&mut self, call: &Call, cut: Cut) -> bool {
        let is_cut = self.random.percent(self.habits.cuts_in_moving);
        if is_cut {
            self.tally.note_cut(call.name(), cut);
        }
        is_cut
    }
}
