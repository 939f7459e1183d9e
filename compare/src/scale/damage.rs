//! Damages of a map: bytes replaced, put in or taken out, one after the other, and the map's end cut off.

use std::ops::Range;

use super::check::Checked;
use crate::leaves::sample::{signed_in, unsigned, unsigned_in};
use crate::random::Random;

/// From this size on bytes are put in or taken out only at times, since the rest is moved.
const LARGE: usize = 1 << 14;
/// One in so many numbers is not another one, but the same in a byte more.
const PADDED: usize = 4;
/// Below this size a map that differs is shown as a whole.
pub const SHOWN: usize = 2000;

/// So many bytes at a place are replaced by others, of the same number or not.
#[derive(Clone, Debug)]
pub struct Edit {
    pub at: usize,
    pub taken: usize,
    pub put: Vec<u8>,
}

impl Edit {
    /// Makes it, and answers the one that undoes it.
    pub fn make(&self, map: &mut Vec<u8>) -> Edit {
        let at = self.at.min(map.len());
        let end = (at + self.taken).min(map.len());
        if end - at == self.put.len() {
            let old = map[at..end].to_vec();
            map[at..end].copy_from_slice(&self.put);
            return Edit { at, taken: self.put.len(), put: old };
        }
        let old: Vec<u8> = map.splice(at..end, self.put.iter().copied()).collect();
        Edit { at, taken: self.put.len(), put: old }
    }
}

/// What is done to a map: edits, and a length that it is cut to.
#[derive(Clone, Debug, Default)]
pub struct Damage {
    pub edits: Vec<Edit>,
    pub cut: Option<usize>,
}

impl Damage {
    /// How much of a map is left.
    pub fn length(&self, map: &[u8]) -> usize {
        self.cut.unwrap_or(usize::MAX).min(map.len())
    }

    /// Whether no byte before `end` is another one, and the map still reaches so far.
    pub fn is_behind(&self, end: usize) -> bool {
        self.edits.iter().all(|edit| edit.at >= end) && self.cut.is_none_or(|cut| cut >= end)
    }

    /// A damaged copy of a map.
    pub fn copy(&self, map: &[u8]) -> Vec<u8> {
        let mut copy = map.to_vec();
        self.edits.iter().for_each(|edit| drop(edit.make(&mut copy)));
        copy.truncate(self.length(&copy));
        copy
    }

    /// Leaves out what is not needed for a difference.
    pub fn shrunk(
        mut self,
        mut why: String,
        mut compare: impl FnMut(&Damage) -> Checked,
    ) -> (Damage, String) {
        let mut k = 0;
        while k <= self.edits.len() {
            let mut fewer = self.clone();
            match k.checked_sub(1) {
                None => fewer.cut = None,
                Some(edit) => drop(fewer.edits.remove(edit)),
            }
            match compare(&fewer) {
                Err(still) if k > 0 || self.cut.is_some() => (self, why) = (fewer, still),
                _ => k += 1,
            }
        }
        (self, why)
    }

    /// What is done to a map, the bytes of a damaged tile, and all of a small map.
    pub fn told(&self, map: &[u8], tile: &Range<usize>) -> String {
        let copy = self.copy(map);
        let end = (tile.end + 64).min(copy.len());
        let start = tile.start.min(end);
        let mut text = format!("  damage: {:x?}\n", self.edits);
        text += &format!("  cut to: {:?} of {}\n", self.cut, map.len());
        text += &format!("  the tile's place {start}, then {:02x?}\n", &copy[start..end]);
        if copy.len() < SHOWN {
            text += &format!("  the whole map {copy:02x?}\n");
        }
        text
    }
}

/// A stretch of a map, and the numbers in it.
pub struct Stretch<'a> {
    pub bytes: Range<usize>,
    pub numbers: &'a [Range<usize>],
}

impl Random {
    /// One damage, at times two, of a stretch of a map; `other` has bytes to be copied in.
    pub fn damage(&mut self, map: &[u8], stretch: &Stretch, other: &[u8]) -> Damage {
        let mut damage = Damage::default();
        let times = 1 + self.below(4) / 3;
        for _ in 0..times {
            match self.below(10) {
                0..=2 => self.flips(map, stretch, &mut damage),
                3 => damage.cut = Some(self.place(stretch)),
                4 | 5 => damage.edits.push(self.copy(map, stretch, other)),
                6..=8 => damage.edits.push(self.number(map, stretch)),
                _ => {
                    let put = (0..=self.below(4)).map(|_| self.byte()).collect();
                    damage.edits.push(self.replaced(map, stretch, put));
                }
            }
        }
        damage
    }

    /// A length that the map is cut to.
    fn place(&mut self, stretch: &Stretch) -> usize {
        stretch.bytes.start + self.below(stretch.bytes.len() + 1)
    }

    fn place_in(&mut self, stretch: &Stretch) -> usize {
        stretch.bytes.start + self.below(stretch.bytes.len().max(1))
    }

    fn flips(&mut self, map: &[u8], stretch: &Stretch, damage: &mut Damage) {
        for _ in 0..=self.below(8) {
            let at = self.place_in(stretch);
            let Some(byte) = map.get(at) else { continue };
            damage.edits.push(Edit { at, taken: 1, put: vec![byte ^ 1 << self.below(8)] });
        }
    }

    fn copy(&mut self, map: &[u8], stretch: &Stretch, other: &[u8]) -> Edit {
        let longest = [4, 16, 64, 256][self.below(4)].min(other.len().max(1));
        let size = 1 + self.below(longest);
        let from = self.below((other.len() + 1).saturating_sub(size).max(1));
        let put = other.get(from..from + size).unwrap_or(&[]).to_vec();
        self.replaced(map, stretch, put)
    }

    /// Bytes over those at a place, or between them.
    fn replaced(&mut self, map: &[u8], stretch: &Stretch, put: Vec<u8>) -> Edit {
        let at = self.place_in(stretch);
        let movable = map.len() < LARGE || self.below(32) == 0;
        match self.below(4) {
            0 if movable => Edit { at, taken: self.below(2 * put.len() + 1), put },
            1 if movable => Edit { at, taken: 0, put },
            _ => {
                let taken = put.len().min(map.len().saturating_sub(at));
                Edit { at, taken, put: put[..taken].to_vec() }
            }
        }
    }

    /// A number in place of one that is there, or over what is there; at times the same one in a byte more.
    fn number(&mut self, map: &[u8], stretch: &Stretch) -> Edit {
        if map.len() < LARGE && !stretch.numbers.is_empty() && self.below(PADDED) == 0 {
            let k = self.below(stretch.numbers.len());
            return self.padded(map, &stretch.numbers[k]);
        }
        let put = self.special();
        if stretch.numbers.is_empty() {
            return self.replaced(map, stretch, put);
        }
        let place = &stretch.numbers[self.below(stretch.numbers.len())];
        if map.len() < LARGE || self.below(16) == 0 {
            return Edit { at: place.start, taken: place.len(), put };
        }
        let taken = put.len().min(map.len() - place.start);
        Edit { at: place.start, taken, put: put[..taken].to_vec() }
    }

    /// A byte more for a number that is there. The bit below the top one is data of an unsigned number and the sign of a signed
    /// one; which of them it is, nobody says here.
    fn padded(&mut self, map: &[u8], place: &Range<usize>) -> Edit {
        let last = map.get(place.end - 1).copied().unwrap_or(0);
        let sign = last & [0, 0x40][self.below(2)];
        Edit { at: place.end - 1, taken: 1, put: vec![last & !sign | 0x80, sign] }
    }

    /// The bytes of a number at a limit, padded at times, or of no number.
    fn special(&mut self) -> Vec<u8> {
        const VALUES: [u64; 22] = [
            0,
            1,
            2,
            3,
            5,
            63,
            64,
            127,
            1 << 7,
            1 << 13,
            1 << 14,
            1 << 20,
            (1 << 20) + 1,
            u32::MAX as u64,
            1 << 32,
            1 << 53,
            (1 << 53) + 1,
            (1 << 54) + 1,
            1 << 61,
            1 << 62,
            (1 << 63) - 1,
            1 << 63,
        ];
        let value = match self.below(3) {
            0 => self.next() >> self.below(64),
            1 => self.below(20) as u64,
            _ => VALUES[self.below(VALUES.len())],
        };
        match self.below(12) {
            0 => (0..10).map(|k| self.byte() | if k < 9 { 0x80 } else { 0 }).collect(),
            1 => unsigned_in(value & 0x7FFF_FFFF_FFFF, 7 + self.below(4)),
            2 | 3 => signed_in(self.below(2) == 0, value >> 2, 9),
            _ => unsigned(value),
        }
    }
}
