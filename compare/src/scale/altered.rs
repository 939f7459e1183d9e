//! What a declined way holds is not looked at: lists of calls on our library's streams, again on copies of the map in
//! which bytes that lie only in ways declined untried are others. Which bytes these are, the driver's own model says.
//! Copies with other bytes altered are controls: that they differ shows that something is compared.

mod bytes;
mod calls;
mod controls;
mod overlaps;
mod pairs;
mod tally;

use std::time::Instant;

use super::bases::{self, Base};
use super::check::{caught, Check, Checked};
use super::damage::Damage;
use super::library::{self, Ask};
use super::opening::{self, Opening};
use super::{whole, Options, ENOUGH};
use crate::differences::tile::Opened;
use crate::random::Random;
use crate::tiles::Address;
use calls::List;
use controls::CONTROLS;
use pairs::Pair;
use tally::Tally;

const CASES: u64 = 200_000;
const QUICK_CASES: u64 = 120_000;
const CONTROLS_OF_LIST: usize = 3;

/// The tiles of all maps, with so many lists at least; whether no copy differs, and controls of each kind do.
pub fn compare(mut bases: Vec<Base>, options: &Options) -> bool {
    let start = Instant::now();
    bases.extend(overlaps::bases());
    let mut tally = Tally::default();
    let differing = of_maps(&mut tally, &bases, options).unwrap_or_else(|why| {
        println!("DIFFERS: {why}");
        1
    });
    println!("{}, seed {}", bases::told(&bases), options.seed);
    tally.print();
    println!("differ: {differing}");
    println!("time: {:.1} s", start.elapsed().as_secs_f64());
    differing == 0 && tally.compares()
}

/// Answers how many of the maps differ.
fn of_maps(tally: &mut Tally, bases: &[Base], options: &Options) -> Checked<u64> {
    let maps = bases.iter().map(|base| Map::of(tally, base)).collect::<Checked<Vec<_>>>()?;
    let tiles: usize = maps.iter().map(|map| map.tiles.len()).sum();
    let each = options.cases(CASES, QUICK_CASES).div_ceil(tiles.max(1) as u64);
    let mut differing = 0;
    for (number, map) in (0..).zip(&maps) {
        let mut random = Random::of_case(options.seed, number);
        let compared = caught(|| map.lists(tally, each, &mut random));
        let Err(why) = compared.and_then(|compared| compared) else { continue };
        println!("DIFFERS: {}, {why}", map.base.name);
        map.base.print_if_small();
        differing += 1;
        if differing >= ENOUGH {
            break;
        }
    }
    Ok(differing)
}

/// A map, and its tiles that are in the theorem.
struct Map<'a> {
    base: &'a Base,
    opening: Opening<'a>,
    tiles: Vec<Address>,
}

impl<'a> Map<'a> {
    /// Which tiles these are, the driver's model says.
    fn of(tally: &mut Tally, base: &'a Base) -> Checked<Self> {
        let opening = opening::of(&mut Check::default(), &base.map)?;
        let is_exact = |at: &&Address| {
            let opened = opening.as_ref().map(Opened::of).map_err(Clone::clone);
            tally.empty += u64::from(opened.as_ref().is_ok_and(|opened| opened.is_empty(at)));
            tally.is_exact(opened.and_then(|opened| opened.streamed_tile(at)))
        };
        let tiles = base.tiles.iter().filter(is_exact).copied().collect();
        Ok(Map { base, opening, tiles })
    }

    /// So many lists on each of the tiles.
    fn lists(&self, tally: &mut Tally, each: u64, random: &mut Random) -> Checked {
        let Ok(file) = &self.opening else { return Ok(()) };
        let (map, mut copy) = (&self.base.map[..], self.base.map.clone());
        let (opened, (layout, lists)) = (Opened::of(file), opening::ours(map));
        let kept = bytes::opening(map, &file.header);
        for &at in &self.tiles {
            let interval = library::interval(map, &layout, at.sub_file as usize).interval;
            let ask = Ask { map, layout, tags: lists.lend(), as_named: true, interval, at };
            let tile = Tile { opened, ask, kept: &kept };
            let before = tally.copies;
            for _ in 0..each {
                let place = |why| format!("sub file {}, tile {}, {why}", at.sub_file, at.tile);
                tile.list(tally, &mut copy, random).map_err(place)?;
            }
            tally.tiles += u64::from(tally.copies > before);
        }
        tally.maps += u64::from(!self.tiles.is_empty());
        Ok(())
    }
}

/// A tile in the theorem, and the bytes that opening reads.
struct Tile<'a> {
    opened: Opened<'a>,
    ask: Ask<'a>,
    kept: &'a [bytes::Bytes],
}

impl Tile<'_> {
    /// A list of calls, a copy altered where it must not show, and some controls. The copy is the map itself
    /// between them.
    fn list(&self, tally: &mut Tally, copy: &mut Vec<u8>, random: &mut Random) -> Checked {
        let zooms = whole::zooms(self.opened.header, &self.ask.at);
        let zoom = zooms[random.below(zooms.len())];
        let parts = self.opened.stream_parts(&self.ask.at, zoom);
        let parts =
            parts.map_err(|refusal| format!("collects, but at zoom {zoom}: {refusal:?}"))?;
        let list = List::random(&parts, random);
        tally.list(&list);
        let free = bytes::only_in_untried(&parts, &list, self.kept);
        if !free.is_empty() {
            let damage = random.altered(self.ask.map, &free);
            tally.altered(self.ask.map, &damage);
            let place = |why| format!("zoom {zoom}, calls {:?}: {why}", list.steps);
            self.unnoticed(tally, copy, zoom, &list, damage).map_err(place)?;
        }
        for _ in 0..CONTROLS_OF_LIST {
            let control = CONTROLS[random.below(CONTROLS.len())];
            if let Some(damage) = control.damage(self.ask.map, &parts, &list, random) {
                let noticed = self.on_copy(&mut Check::default(), copy, zoom, &list, &damage);
                tally.control(control, noticed.is_err());
            }
        }
        Ok(())
    }

    /// What differs is told with the alteration as far as it is needed.
    fn unnoticed(
        &self,
        tally: &mut Tally,
        copy: &mut Vec<u8>,
        zoom: u8,
        list: &List,
        damage: Damage,
    ) -> Checked {
        let compared = self.on_copy(&mut tally.check, copy, zoom, list, &damage);
        let Err(why) = compared else {
            tally.uncollected += u64::from(!self.collects(copy, &damage));
            return Ok(());
        };
        let again = |fewer: &Damage| self.on_copy(&mut Check::default(), copy, zoom, list, fewer);
        let (damage, why) = damage.shrunk(why, again);
        Err(format!("{why}\n  altered: {:x?}", damage.edits))
    }

    fn on_copy(
        &self,
        check: &mut Check,
        copy: &mut Vec<u8>,
        zoom: u8,
        list: &List,
        damage: &Damage,
    ) -> Checked {
        on(copy, damage, |copy| Pair { ask: self.ask, copy, zoom }.same(check, list))
    }

    /// Whether the altered tile still collects.
    fn collects(&self, copy: &mut Vec<u8>, damage: &Damage) -> bool {
        on(copy, damage, |map| library::collect_all(&Ask { map, ..self.ask }).0.got.number == 0)
    }
}

/// Alters the copy, looks at it, and undoes that.
fn on<T>(copy: &mut Vec<u8>, damage: &Damage, look: impl FnOnce(&[u8]) -> T) -> T {
    let undo: Vec<_> = damage.edits.iter().map(|edit| edit.make(copy)).collect();
    let seen = look(copy);
    undo.iter().rev().for_each(|edit| drop(edit.make(copy)));
    seen
}
