//! Two answers of our library that must be the same: word for word, with every entry of arrays and lists, written
//! or not, and the bytes of the texts.

use super::check::{Call, Check, Checked};
use super::lent::Fronts;
use super::library::{Accept, Next};
use super::opening::part;

/// The maps that the two answers are about.
pub struct Alike<'a, 'b> {
    pub check: &'b mut Check,
    pub maps: [&'a [u8]; 2],
}

impl Alike<'_, '_> {
    /// A point, a head, the end or a refusal.
    pub fn next(&mut self, ours: &Next, theirs: &Next) -> Checked {
        self.check.got(Call::StreamNext, &ours.got, theirs.got.number, &theirs.got.words)?;
        self.check.same("layer and elevation", ours.signed, theirs.signed)?;
        self.check.floats("position", &ours.degrees, &theirs.degrees)?;
        self.check.words("tag ids", &ours.ids, &theirs.ids)?;
        // of a point alone these words are its own
        if ours.got.number == 0 && ours.got.words[6] == 0 {
            self.texts([&ours.got.words[11..17], &theirs.got.words[11..17]])?;
        }
        Ok(())
    }

    /// A way's body, or a refusal.
    pub fn accept(&mut self, ours: &Accept, theirs: &Accept) -> Checked {
        self.check.got(Call::StreamAccept, &ours.got, theirs.got.number, &theirs.got.words)?;
        self.check.floats("label position", &ours.degrees, &theirs.degrees)?;
        if ours.got.number == 0 {
            self.texts([&ours.got.words[8..17], &theirs.got.words[8..17]])?;
        }
        Ok(())
    }

    pub fn lists(&mut self, ours: &Fronts, theirs: &Fronts) -> Checked {
        self.check.words("node counts", &ours.counts, &theirs.counts)?;
        self.check.floats("latitudes", &ours.floats[0], &theirs.floats[0])?;
        self.check.floats("longitudes", &ours.floats[1], &theirs.floats[1])
    }

    /// The bytes of each text, which are in the map.
    fn texts(&mut self, [ours, theirs]: [&[u64]; 2]) -> Checked {
        for (ours, theirs) in ours.chunks_exact(3).zip(theirs.chunks_exact(3)) {
            let text = part(self.maps[0], ours[1], ours[2]);
            self.check.same("a text", text, part(self.maps[1], theirs[1], theirs[2]))?;
            text.ok_or("a text that is not in the map")?;
        }
        Ok(())
    }
}
