//! What the faults of the converter do wrong.

use super::{put, Fault, Planted};
use cabinet::{Cabinet, Converted, BLOCK_SIZE, IMAGE_SIZE};
use model::Model;
use trials::stored::{seal, Stored, Version};

fn convert(from: Version, image: &[u8], out: &mut [u8]) -> Converted {
    match from {
        Version::One => Model.convert_forward(image, out),
        Version::Two => Model.convert_back(image, out),
    }
}

/// A state whose last word is free, and whose timeout is made another; its image.
fn mended(image: &[u8], timeout: impl Fn(u32) -> u32) -> Vec<u8> {
    let mut stored = Stored::read(image);
    stored.timeout = timeout(stored.timeout);
    if let Some(word) = stored.labels.get_mut(119) {
        *word = 0;
    }
    let mut mended = image.to_vec();
    mended[..BLOCK_SIZE].copy_from_slice(&stored.image(0)[..BLOCK_SIZE]);
    mended
}

/// True where an image of a version has something for which the other has no room.
fn is_unmovable(from: Version, image: &[u8]) -> bool {
    let to = if from == Version::One { Version::Two } else { Version::One };
    let mut stored = Stored::read(image);
    stored.queue.clear();
    stored.moved(to).is_none()
}

/// True where a sound image of version 2 is to be moved forward, and there is room for it.
fn has_version_already(from: Version, image: &[u8], out: &[u8]) -> bool {
    from == Version::One && out.len() >= IMAGE_SIZE && Model.summarize(image).answer == 0
}

impl Planted {
    /// The converter from a version, done wrongly where the model does it, or refuses it, rightly.
    pub fn wrong_move(&self, from: Version, image: &[u8], out: &mut [u8]) -> Converted {
        let right = convert(from, image, out);
        match right.answer {
            0 => self.moved_wrongly(image, out, right),
            16 => self.moved_in_vain(from, image, out, right),
            9 if self.0 == Fault::FillsShortOutput && !out.is_empty() => {
                out[0] = 0;
                right
            }
            10 | 11 if self.0 == Fault::MovesBeforeSlots && right.block > 0 && is_unmovable(from, image) => {
                Converted { answer: 16, block: 0, length: 0 }
            }
            11 if self.0 == Fault::ConvertsOtherVersion && has_version_already(from, image, out) => {
                out[..IMAGE_SIZE].copy_from_slice(image);
                Converted { answer: 0, block: 0, length: IMAGE_SIZE as u32 }
            }
            _ => right,
        }
    }

    /// What is written where the image can be moved.
    fn moved_wrongly(&self, image: &[u8], out: &mut [u8], right: Converted) -> Converted {
        match (self.0, Version::of(out)) {
            (Fault::KeepsUnit, Some(to)) => {
                let number = Stored::read(image).timeout.to_be_bytes();
                let place = to.timeout_at();
                put(out, place.start, &number[4 - place.len()..]);
            }
            (Fault::LeavesSeconds, Some(Version::Two)) => put(out, 20, &image[20..22]),
            (Fault::ConverterFreesUnprotected, _) => {
                let block = Stored::read(out).after_break().image(0);
                out[..BLOCK_SIZE].copy_from_slice(&block[..BLOCK_SIZE]);
            }
            (Fault::ConvertsBlock0Alone, _) => out[BLOCK_SIZE..IMAGE_SIZE].fill(0),
            (Fault::TellsNoLength, _) => return Converted { length: 0, ..right },
            _ => {}
        }
        seal(out, 0);
        right
    }

    /// What is done where the image cannot be moved.
    fn moved_in_vain(&self, from: Version, image: &[u8], out: &mut [u8], right: Converted) -> Converted {
        let timeout = Stored::read(image).timeout;
        match (self.0, from) {
            (Fault::DropsLastWord, Version::One) => convert(from, &mended(image, |seconds| seconds), out),
            (Fault::RoundsSeconds, Version::Two) => convert(from, &mended(image, |all| all / 1_000 * 1_000), out),
            (Fault::WrapsSeconds, Version::Two) if timeout.is_multiple_of(1_000) => {
                convert(from, &mended(image, |all| all / 1_000 % 65_536 * 1_000), out)
            }
            (Fault::RoomBeforeMove, _) if out.len() < IMAGE_SIZE => Converted { answer: 9, ..right },
            _ => right,
        }
    }
}
