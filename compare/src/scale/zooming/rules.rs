//! Rules by which ways are accepted. They look at a way's bitmap and tag ids alone.

use crate::answer::Fold;

#[derive(Clone, Copy, Debug)]
pub enum Rule {
    All,
    None,
    /// The bitmap has some of these bits.
    Bitmap(u16),
    /// Some tag id is a multiple of this number.
    SomeId(u64),
    /// A digest of all tag ids, which starts with this number, has a certain bit.
    Ids(u64),
    /// The same of the bitmap and all tag ids.
    Both(u64),
}

/// Those that are tried beside `All`.
pub const RULES: [Rule; 8] = [
    Rule::None,
    Rule::Bitmap(0x8421),
    Rule::Bitmap(0x00F0),
    Rule::SomeId(3),
    Rule::Ids(1),
    Rule::Ids(2),
    Rule::Both(1),
    Rule::Both(2),
];

/// The bit of a digest that decides, a high one since a low one is only a sum's.
const BIT: u32 = 40;

impl Rule {
    pub fn accepts(self, bitmap: u16, ids: &[u64]) -> bool {
        match self {
            Rule::All => true,
            Rule::None => false,
            Rule::Bitmap(mask) => bitmap & mask != 0,
            Rule::SomeId(number) => ids.iter().any(|id| id % number == 0),
            Rule::Ids(first) => bit(&[first], ids),
            Rule::Both(first) => bit(&[first, u64::from(bitmap)], ids),
        }
    }
}

fn bit(first: &[u64], ids: &[u64]) -> bool {
    let mut fold = Fold::new();
    fold.words(first);
    fold.words(ids);
    fold.value() >> BIT & 1 == 1
}
