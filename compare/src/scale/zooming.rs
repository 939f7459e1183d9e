//! Zooming in only adds: our library's streams of a tile at all pairs of zooms, by rules that look at a
//! way's bitmap and tag ids alone and with the same lists, on all maps and on copies of their tiles. A
//! stream that ends well says what comes at each lower zoom; one that does not says nothing.

mod given;
mod pairs;
mod rules;
mod streams;
mod tally;

use std::time::Instant;

use super::bases::{self, Base};
use super::check::{caught, Check, Checked};
use super::copies::Copies;
use super::library::{self, Ask};
use super::{foreign, opening, Options, ENOUGH};
use crate::differences::tile::Opened;
use crate::random::Random;
use crate::tiles::Address;
use tally::Tally;

const CASES: u64 = 20_000;
const QUICK_CASES: u64 = 12_000;

/// All maps and copies; whether none differs.
pub fn compare(bases: &[Base], options: &Options) -> bool {
    let start = Instant::now();
    let mut tally = Tally::default();
    // a single case is asked for to be looked at again
    let maps = if options.only.is_none() { bases } else { &[] };
    let differing = whole_maps(&mut tally, maps) + damaged_copies(&mut tally, bases, options);
    println!();
    tally.print();
    println!("differ: {differing}");
    println!("time: {:.1} s", start.elapsed().as_secs_f64());
    differing == 0
}

/// Answers how many of the maps differ.
fn whole_maps(tally: &mut Tally, bases: &[Base]) -> u64 {
    let (start, mut differing) = (Instant::now(), 0);
    for base in bases {
        let mut random = Random::new(super::SEED);
        let compared = caught(|| of_tiles(tally, &base.map, &base.tiles, &mut random));
        let Err(why) = compared.and_then(|compared| compared) else { continue };
        differing += 1;
        if differing <= ENOUGH {
            println!("DIFFERS: {}, undamaged: {why}", base.name);
            base.print_if_small();
        }
    }
    let (maps, time) = (bases::told(bases), start.elapsed().as_secs_f64());
    println!("undamaged: {maps}, {differing} of the maps differ; {time:.1} s");
    differing
}

/// Answers how many of the copies differ.
fn damaged_copies(tally: &mut Tally, bases: &[Base], options: &Options) -> u64 {
    let (start, mut cases, mut differing) = (Instant::now(), 0, 0);
    let copies = match Copies::of(options.seed, bases, true) {
        Ok(copies) => copies,
        Err(why) => {
            println!("DIFFERS: {why}");
            return 1;
        }
    };
    let all = 0..options.cases(CASES, QUICK_CASES);
    for case in options.only.map_or(all, |only| only..only + 1) {
        cases += 1;
        if let Err(why) = copies.run(tally, case, of_tiles) {
            println!("DIFFERS: {why}");
            differing += 1;
        }
        if differing >= ENOUGH {
            break;
        }
    }
    let (seed, time) = (options.seed, start.elapsed().as_secs_f64());
    println!("damaged: {cases} copies of a tile, seed {seed}, {differing} differ; {time:.1} s");
    differing
}

/// Some tiles of a map, by the words of its own header.
fn of_tiles(tally: &mut Tally, map: &[u8], tiles: &[Address], random: &mut Random) -> Checked {
    let opening = opening::of(&mut Check::default(), map)?;
    let file = opening.unwrap_or_else(|_| foreign::unopened(map));
    let (layout, lists) = opening::ours(map);
    for &at in tiles {
        let interval = library::interval(map, &layout, at.sub_file as usize).interval;
        let ask = Ask { map, layout, tags: lists.lend(), as_named: true, interval, at };
        let place = |why| format!("sub file {}, tile {}, {why}", at.sub_file, at.tile);
        pairs::of_tile(tally, Opened::of(&file), &ask, random).map_err(place)?;
    }
    Ok(())
}
