//! What came of a work: counts, and where both sides are compared a digest of all that was given.

use crate::answer::Fold;

#[derive(Default, PartialEq, Debug)]
pub struct Tally {
    pub calls: u64,
    pub tiles: u64,
    pub points: u64,
    pub ways: u64,
    pub blocks: u64,
    pub nodes: u64,
    pub refused: u64,
    digest: Option<u64>,
}

impl Tally {
    /// For the clock, counts alone.
    pub fn counts() -> Self {
        Tally::default()
    }

    /// For the comparison before it.
    pub fn with_digest() -> Self {
        Tally { digest: Some(0), ..Tally::default() }
    }

    /// Whether what was counted is the same.
    pub fn same_counts(&self, other: &Tally) -> bool {
        let counts = |t: &Tally| [t.calls, t.tiles, t.points, t.ways, t.blocks, t.nodes, t.refused];
        counts(self) == counts(other)
    }

    /// The number is not asked for under the clock: the Rust's would cost it an allocation.
    pub fn refuse(&mut self, number: impl FnOnce() -> u64) {
        self.refused += 1;
        self.digest(|fold| fold.word(number()));
    }

    /// Adds to the digest, if there is one: the clock sees a branch.
    #[inline(always)]
    pub fn digest(&mut self, add: impl FnOnce(&mut Fold)) {
        if let Some(digest) = &mut self.digest {
            let mut fold = Fold::new();
            fold.word(*digest);
            add(&mut fold);
            *digest = fold.value();
        }
    }
}

/// A text or none.
pub fn text(fold: &mut Fold, text: Option<&[u8]>) {
    fold.word(text.map_or(0, |text| 1 + text.len() as u64));
    fold.bytes(text.unwrap_or_default());
}

pub fn degrees(fold: &mut Fold, degrees: [f64; 2]) {
    fold.words(&degrees.map(f64::to_bits));
}

/// A number or none.
pub fn number(fold: &mut Fold, number: Option<i64>) {
    fold.word(number.is_some().into());
    fold.word(number.unwrap_or_default() as u64);
}

/// Behind the count of the ids, so that no two lists look alike.
pub fn ids(fold: &mut Fold, ids: impl ExactSizeIterator<Item = u64>) {
    fold.word(ids.len() as u64);
    ids.for_each(|id| fold.word(id));
}
