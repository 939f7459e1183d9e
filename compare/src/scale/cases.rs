//! Damaged maps. A case is a number: it picks a map and a tile of it, damages it, compares, and undoes the
//! damage.

use std::ops::Range;

use super::bases::Base;
use super::check::{Check, Checked};
use super::damage::{Damage, Stretch};
use super::held::Held;
use super::lent::Lent;
use super::opening::{self, Opening};
use crate::differences::tile::{Opened, ReadParts};
use crate::random::Random;
use crate::tiles::Address;

/// A tile of so many bytes in a map of so many is small.
const SMALL_TILE: usize = 400;
const SMALL_MAP: usize = 1 << 13;
const MIDDLE_TILE: usize = 3000;
/// Where damages of a header start: mostly behind magic bytes and box, or little else would be reached.
const HEADER_STARTS: [usize; 8] = [0, 20, 24, 44, 60, 60, 60, 60];
/// One in so many cases has a tile that is marked empty.
const MARKED: usize = 16;

/// A tile to damage.
struct Target {
    base: usize,
    at: Address,
    /// The bytes that collecting reads, and the numbers in them; else the whole map.
    bytes: Range<usize>,
    numbers: Vec<Range<usize>>,
    is_read: bool,
}

/// The maps and tiles of a thread, and by their numbers the small tiles and those of a middle size.
pub struct Cases {
    seed: u64,
    held: Vec<Held>,
    targets: Vec<Target>,
    small: Vec<usize>,
    middle: Vec<usize>,
    /// Those of which nothing is read.
    bare: Vec<usize>,
    lent: Lent,
}

impl Cases {
    pub fn new(seed: u64, bases: &[Base]) -> Checked<Self> {
        let (mut held, mut targets) = (Vec::new(), Vec::new());
        for (k, base) in bases.iter().enumerate() {
            let opening = opening::of(&mut Check::default(), &base.map)?;
            targets.extend(base.tiles.iter().map(|at| target(k, base, &opening, at)));
            held.push(Held::of(base, opening)?);
        }
        let of_size = |tile: usize, map: usize| -> Vec<usize> {
            let fits = |target: &Target| {
                target.is_read && target.bytes.len() <= tile && held[target.base].map.len() <= map
            };
            (0..targets.len()).filter(|&k| fits(&targets[k])).collect()
        };
        let (small, middle) = (of_size(SMALL_TILE, SMALL_MAP), of_size(MIDDLE_TILE, usize::MAX));
        let bare: Vec<usize> = (0..targets.len()).filter(|&k| !targets[k].is_read).collect();
        if small.is_empty() || bare.is_empty() {
            return Err("there is no small tile, or every tile is read".into());
        }
        Ok(Cases { seed, held, targets, small, middle, bare, lent: Lent::default() })
    }

    /// One case by its number. What differs comes with the case, its damage as far as it is needed, and the
    /// two answers.
    pub fn run(&mut self, check: &mut Check, case: u64) -> Checked {
        let mut random = Random::of_case(self.seed, case);
        let target = self.pick(&mut random);
        let damage = self.damage(target, &mut random);
        let seed = random.next() | 1;
        let compared = self.compare(check, target, &damage, seed);
        check.end_case();
        let Err(why) = compared else { return Ok(()) };
        let compare = |fewer: &Damage| self.compare(&mut Check::default(), target, fewer, seed);
        let (damage, why) = damage.shrunk(why, compare);
        Err(self.difference(case, target, &damage, &why))
    }

    fn pick(&self, random: &mut Random) -> usize {
        match random.below(1000) {
            0 => random.below(self.targets.len()),
            1..=60 => self.middle[random.below(self.middle.len())],
            61..=160 => self.bare[random.below(self.bare.len())],
            _ => self.small[random.below(self.small.len())],
        }
    }

    /// Mostly of the tile, at times of its entry and the next one, or of the header. At times the tile is marked empty
    /// besides.
    fn damage(&self, target: usize, random: &mut Random) -> Damage {
        let target = &self.targets[target];
        let held = &self.held[target.base];
        let other = &self.targets[random.below(self.targets.len())];
        let other = &self.held[other.base].map[other.bytes.clone()];
        let (bytes, numbers) = match random.below(16) {
            1 => (held.entries(&target.at), &[][..]),
            2.. if target.is_read => (target.bytes.clone(), &target.numbers[..]),
            _ => (HEADER_STARTS[random.below(8)]..held.header_end, &held.lengths[..]),
        };
        let end = bytes.end.min(held.map.len());
        let stretch = Stretch { bytes: bytes.start.min(end)..end, numbers };
        let mut damage = random.damage(&held.map, &stretch, other);
        if random.below(MARKED) == 0 {
            // first, so that its place is what it is in the map
            damage.edits.insert(0, held.mark(&target.at, random));
        }
        damage
    }

    /// Damages, compares, and undoes the damage.
    fn compare(&mut self, check: &mut Check, target: usize, damage: &Damage, seed: u64) -> Checked {
        let target = &self.targets[target];
        let held = &mut self.held[target.base];
        let undo: Vec<_> = damage.edits.iter().map(|edit| edit.make(&mut held.map)).collect();
        let compared = held.compare(check, &mut self.lent, target.at, damage, seed);
        undo.iter().rev().for_each(|edit| drop(edit.make(&mut held.map)));
        if compared.is_err() {
            // lists that a faulty call wrote to do not hold the pattern any more
            self.lent = Lent::default();
        }
        compared
    }

    fn difference(&self, case: u64, target: usize, damage: &Damage, why: &str) -> String {
        let target = &self.targets[target];
        let held = &self.held[target.base];
        let (at, seed) = (target.at, self.seed);
        let mut text = format!("seed {seed}, case {case}: {}, sub file {}", held.name, at.sub_file);
        text += &format!(", grid {:?}, tile {}\n", at.grid, at.tile);
        text + &damage.told(&held.map, &target.bytes) + "  " + why
    }
}

fn target(base: usize, map: &Base, opening: &Opening, at: &Address) -> Target {
    let parts = opening.as_ref().ok().and_then(|file| Opened::of(file).read_parts(at));
    match parts {
        Some(ReadParts { bytes, numbers, .. }) => {
            Target { base, at: *at, bytes, numbers, is_read: true }
        }
        None => {
            let bytes = 0..map.map.len();
            Target { base, at: *at, bytes, numbers: Vec::new(), is_read: false }
        }
    }
}
