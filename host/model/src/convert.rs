//! The converter: an image of one version as one of the other, into an output of its own. Block 0 alone differs.

use crate::draft::Draft;
use crate::image::{self, Refusal};
use crate::layout::Layout;
use cabinet::{Converted, IMAGE_SIZE};

/// Moves an image: 0; or 12, 10, 11 by all the checks of the version that it has, 16, 9.
#[inline(always)]
pub fn convert(from: Layout, to: Layout, image: &[u8], out: &mut [u8]) -> Converted {
    match moved(from, to, image, out) {
        Ok(()) => Converted { answer: 0, block: 0, length: IMAGE_SIZE as u32 },
        Err(Refusal { answer, block }) => Converted { answer, block, length: 0 },
    }
}

#[inline(always)]
fn moved(from: Layout, to: Layout, image: &[u8], out: &mut [u8]) -> Result<(), Refusal> {
    image::examine_as(from, image)?;
    let draft = Draft::moved(image::block(image, 0), from, to).ok_or(Refusal::of(16))?;
    let out = out.get_mut(..IMAGE_SIZE).ok_or(Refusal::of(9))?;
    out.copy_from_slice(image);
    draft.store(out);
    Ok(())
}
