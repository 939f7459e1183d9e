//! Copies of tiles: with stored sizes that are wrong, and with the damages of `scale`.

use std::collections::BTreeSet;
use std::ops::Range;

use super::bases::Base;
use super::check::{caught, Check, Checked};
use super::damage::{Damage, Edit, Stretch};
use super::{opening, whole};
use crate::differences::tile::{Opened, ReadParts};
use crate::differences::unsigned;
use crate::leaves::sample::unsigned_in;
use crate::random::Random;
use crate::tiles::Address;

/// A tile of so many bytes and zooms in a map of so many bytes is small, and one in so many copies is of
/// any tile: a bad way may be read to the map's end.
const SMALL_TILE: usize = 3000;
const SMALL_ZOOMS: usize = 16;
const SMALL_MAP: usize = 1 << 16;
const ANY: usize = 16;

/// Compares some tiles of a map, and counts what it has compared.
pub type Compare<Tally> = fn(&mut Tally, &[u8], &[Address], &mut Random) -> Checked;

/// A tile with ways.
struct Target<'a> {
    base: &'a Base,
    at: Address,
    parts: ReadParts,
    is_small: bool,
}

/// The tiles, the small ones first.
pub struct Copies<'a> {
    seed: u64,
    targets: Vec<Target<'a>>,
    small: usize,
}

impl<'a> Copies<'a> {
    /// Of all tiles with ways, or of those alone of which the zoom table counts more at the highest zoom than at the lowest.
    pub fn of(seed: u64, bases: &'a [Base], growing: bool) -> Checked<Self> {
        let mut targets = Vec::new();
        for base in bases {
            let Ok(file) = opening::of(&mut Check::default(), &base.map)? else { continue };
            let mut starts = BTreeSet::new();
            let opened = Opened::of(&file);
            let grows = |at: &&Address| opened.counted(at, 0) != opened.counted(at, u8::MAX);
            let tiles = base.tiles.iter().filter(|at| !growing || grows(at));
            let of_base = tiles.filter_map(|at| target(base, opened, at));
            // two entries may lead to the same tile
            targets.extend(of_base.filter(|target| starts.insert(target.parts.bytes.start)));
        }
        targets.sort_by_key(|target| !target.is_small);
        let small = targets.partition_point(|target| target.is_small);
        if small == 0 {
            return Err("there is no small tile to copy".into());
        }
        Ok(Copies { seed, targets, small })
    }

    /// One copy by its number. What differs comes with its damage as far as it is needed.
    pub fn run<Tally: Default>(
        &self,
        tally: &mut Tally,
        case: u64,
        compare: Compare<Tally>,
    ) -> Checked {
        let mut random = Random::of_case(self.seed, case);
        let target = self.pick(&mut random);
        let damage = self.damage(target, &mut random);
        let seed = random.next() | 1;
        let of = |tally: &mut Tally, damage: &Damage| {
            let copy = damage.copy(&target.base.map);
            caught(|| compare(tally, &copy, &[target.at], &mut Random::new(seed)))?
        };
        let Err(why) = of(tally, &damage) else { return Ok(()) };
        let again = |fewer: &Damage| of(&mut Tally::default(), fewer);
        let (damage, why) = damage.shrunk(why, again);
        let told = damage.told(&target.base.map, &target.parts.bytes);
        let (seed, name) = (self.seed, &target.base.name);
        Err(format!("seed {seed}, case {case}: {name}\n{told}  {why}"))
    }

    fn pick(&self, random: &mut Random) -> &Target<'a> {
        let end = if random.below(ANY) == 0 { self.targets.len() } else { self.small };
        &self.targets[random.below(end)]
    }

    /// Mostly wrong stored sizes, at times other damages, or both.
    fn damage(&self, target: &Target, random: &mut Random) -> Damage {
        let (map, ReadParts { bytes, numbers, sizes }) = (&target.base.map, &target.parts);
        let kind = random.below(8);
        let mut damage = Damage::default();
        if kind < 3 {
            let other = self.pick(random);
            let other = &other.base.map[other.parts.bytes.clone()];
            damage = random.damage(map, &Stretch { bytes: bytes.clone(), numbers }, other);
        }
        if kind > 1 {
            // in place, so that the places of the other edits stay what they are
            damage.edits.splice(0..0, random.wrong_sizes(map, sizes));
        }
        damage
    }
}

fn target<'a>(base: &'a Base, opened: Opened, at: &Address) -> Option<Target<'a>> {
    let parts = opened.read_parts(at)?;
    let zooms = whole::zooms(opened.header, at).len();
    let is_small =
        parts.bytes.len() <= SMALL_TILE && zooms <= SMALL_ZOOMS && base.map.len() <= SMALL_MAP;
    (!parts.sizes.is_empty()).then_some(Target { base, at: *at, parts, is_small })
}

impl Random {
    /// Other stored sizes for one way, for two or for many.
    fn wrong_sizes(&mut self, map: &[u8], sizes: &[Range<usize>]) -> Vec<Edit> {
        let ways = [1, 1, 2, sizes.len()][self.below(4)];
        (0..ways).map(|_| self.wrong_size(map, sizes)).collect()
    }

    /// In as many bytes as the stored one: by a few bytes wrong, up to one of the next ways, or any.
    fn wrong_size(&mut self, map: &[u8], sizes: &[Range<usize>]) -> Edit {
        let k = self.below(sizes.len());
        let place = &sizes[k];
        let stored = unsigned(&map[place.clone()]);
        let later = &sizes[(k + 1).min(sizes.len() - 1)..];
        let way = &later[(1 + self.below(3)).min(later.len() - 1)];
        let size = match self.below(4) {
            0 => stored.wrapping_sub(8).wrapping_add(self.below(17) as u64),
            1 | 2 => stored.wrapping_add((way.start - later[0].start) as u64),
            _ => self.next(),
        };
        Edit { at: place.start, taken: place.len(), put: unsigned_in(size, place.len()) }
    }
}
