//! The differential run: the same calls on two cabinets, everything that can be seen compared byte for byte.

use crate::calls::{make, misconduct, Call, Observed};
use crate::coverage::Coverage;
use crate::generate::{calls, damage, states};
use crate::random::Random;
use crate::stored::Stored;
use cabinet::Cabinet;
use std::fmt;

/// Where two cabinets differ, or one of them does what no cabinet may.
#[derive(Clone)]
pub struct Difference {
    pub what: String,
    pub call: Call,
    pub reference: Box<Observed>,
    pub tested: Box<Observed>,
}

impl fmt::Debug for Difference {
    fn fmt(&self, f: &mut fmt::Formatter) -> fmt::Result {
        let image = places(self.reference.image.content(), self.tested.image.content());
        let output = places(self.reference.output.content(), self.tested.output.content());
        let words = places(self.reference.words.content(), self.tested.words.content());
        writeln!(f, "{}", self.what)?;
        writeln!(f, "  call      {:?}", self.call)?;
        writeln!(f, "  reference {:?}", self.reference.returned)?;
        writeln!(f, "  tested    {:?}", self.tested.returned)?;
        writeln!(f, "  image bytes that differ (place, reference, tested) {image:?}")?;
        writeln!(f, "  output bytes that differ {output:?}")?;
        write!(f, "  words that differ {words:?}")
    }
}

/// The first places where two buffers differ.
fn places<T: Copy + PartialEq>(a: &[T], b: &[T]) -> Vec<(usize, T, T)> {
    let pairs = a.iter().zip(b).enumerate();
    pairs.filter(|(_, (a, b))| a != b).map(|(at, (a, b))| (at, *a, *b)).take(16).collect()
}

/// Makes one call on both cabinets; all that is seen must be the same, and neither may misbehave.
pub fn compare(
    reference: &dyn Cabinet,
    tested: &dyn Cabinet,
    image: &[u8],
    call: &Call,
    alignment: usize,
) -> Result<Observed, Box<Difference>> {
    let expected = make(reference, image, call, alignment);
    let seen = make(tested, image, call, alignment);
    let misconduct = [(&expected, "reference"), (&seen, "tested")]
        .iter()
        .find_map(|(seen, who)| misconduct(image, call, seen).map(|what| format!("{who}: {what}")));
    let what = match misconduct {
        Some(what) => what,
        None if expected == seen => return Ok(expected),
        None => format!("{} differs", call.name()),
    };
    Err(Box::new(Difference { what, call: call.clone(), reference: Box::new(expected), tested: Box::new(seen) }))
}

/// A differential run over generated calls.
pub struct Run<'a> {
    pub reference: &'a dyn Cabinet,
    pub tested: &'a dyn Cabinet,
    pub random: Random,
    pub coverage: Coverage,
}

impl<'a> Run<'a> {
    pub fn new(reference: &'a dyn Cabinet, tested: &'a dyn Cabinet, seed: u64) -> Self {
        Run { reference, tested, random: Random::new(seed), coverage: Coverage::default() }
    }

    /// Makes generated calls until there have been so many, or the first difference.
    pub fn calls(&mut self, count: u64) -> Result<(), Box<Difference>> {
        while self.coverage.total() < count {
            self.walk()?;
        }
        Ok(())
    }

    /// A state, and some calls one after another on its image; mostly no further than its state is released.
    fn walk(&mut self) -> Result<(), Box<Difference>> {
        let mut stored = states::any_version(&mut self.random);
        let mut image = damage::image(&mut self.random, &stored);
        let pure = calls::pure(&mut self.random, &stored);
        self.call(&[], &pure)?;
        for _ in 0..self.random.between(1, 6) {
            let call = calls::on_image(&mut self.random, &stored);
            let seen = self.call(&image, &call)?;
            if may_be_unsound(&call, &seen) {
                return Ok(());
            }
            image = seen.image.content().to_vec();
            stored = Stored::read(&image);
            if !stored.kept && self.random.percent(70) {
                return Ok(());
            }
        }
        Ok(())
    }

    /// One call, compared and noted.
    pub fn call(&mut self, image: &[u8], call: &Call) -> Result<Observed, Box<Difference>> {
        let alignment = self.random.below(8);
        let seen = compare(self.reference, self.tested, image, call, alignment)?;
        self.coverage.note(image, call, &seen);
        Ok(seen)
    }
}

/// True where it is not known that the image passes the checks: a call refused it, or does not tell.
fn may_be_unsound(call: &Call, seen: &Observed) -> bool {
    let tells_nothing =
        matches!(call, Call::Label { .. } | Call::RequestAt { .. } | Call::PrefixAt { .. } | Call::Extend { .. });
    tells_nothing || (10..=12).contains(&seen.returned.answer())
}
