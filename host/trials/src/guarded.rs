//! Buffers with guards on both sides, at every alignment.

const GUARD: usize = 64;

/// What a buffer is made of.
pub trait Element: Copy + PartialEq {
    /// What stands around the buffer.
    const GUARD: Self;
    /// What fills a buffer that a call writes.
    const UNWRITTEN: Self;
}

impl Element for u8 {
    const GUARD: u8 = 0xA5;
    const UNWRITTEN: u8 = 0x5A;
}

impl Element for u32 {
    const GUARD: u32 = 0xA5A5_A5A5;
    const UNWRITTEN: u32 = 0x5A5A_5A5A;
}

/// Elements lent to a call, in the middle of others that no call may touch.
#[derive(Clone, Debug, PartialEq, Eq)]
pub struct Guarded<T> {
    elements: Vec<T>,
    start: usize,
    length: usize,
}

impl<T: Element> Guarded<T> {
    /// Copies the content so many elements, 0 to 7, away from an aligned place.
    pub fn new(content: &[T], alignment: usize) -> Self {
        let start = GUARD + alignment % 8;
        let mut elements = vec![T::GUARD; start + content.len() + GUARD];
        elements[start..start + content.len()].copy_from_slice(content);
        Guarded { elements, start, length: content.len() }
    }

    /// So many elements for a call to write.
    pub fn unwritten(length: usize, alignment: usize) -> Self {
        Guarded::new(&vec![T::UNWRITTEN; length], alignment)
    }

    pub fn lend(&mut self) -> &mut [T] {
        &mut self.elements[self.start..self.start + self.length]
    }

    pub fn content(&self) -> &[T] {
        &self.elements[self.start..self.start + self.length]
    }

    /// True where nothing outside was touched.
    pub fn is_intact(&self) -> bool {
        let (before, rest) = self.elements.split_at(self.start);
        let after = &rest[self.length..];
        before.iter().chain(after).all(|element| *element == T::GUARD)
    }

    /// True where nothing was written but the first so many.
    pub fn is_unwritten_after(&self, written: usize) -> bool {
        self.content().iter().skip(written).all(|element| *element == T::UNWRITTEN)
    }
}
