//! Document 01's book, line by line, over what our library's collecting and fetches give, against our
//! library's stream: every list of a few calls on small tiles, and long random lists on all of them.

mod collected;
pub mod lists;

use std::time::Instant;

use super::bases::{self, Base};
use super::check::{caught, Check, Checked};
use super::lent::Lent;
use super::library::{self, Ask, State, WORD};
use super::opening;
use crate::random::Random;
use collected::Collected;
use lists::Run;

/// Up to so many features a tile is small.
const SMALL: usize = 4;
/// Every list of up to so many calls is tried on a small tile.
const CALLS: u32 = 6;
const SEED: u64 = 0xB00C;

/// What was asked, and of which tiles.
#[derive(Default)]
pub struct Counts {
    tiles: u64,
    small: u64,
    empty: u64,
    refused: u64,
    inexact: u64,
    lists: u64,
    long_lists: u64,
    calls: u64,
}

/// All tiles of all maps, with at least so many long lists; whether none differs.
pub fn compare(bases: &[Base], cases: u64) -> bool {
    let start = Instant::now();
    let tiles: usize = bases.iter().map(|base| base.tiles.len()).sum();
    let each = cases.div_ceil(tiles.max(1) as u64);
    let (mut check, mut counts, mut differing) = (Check::default(), Counts::default(), 0);
    for base in bases {
        let compared = caught(|| of_map(&mut check, &mut counts, base, each));
        if let Err(why) = compared.and_then(|compared| compared) {
            println!("DIFFERS from the book: {}, {why}", base.name);
            differing += 1;
        }
    }
    counts.print();
    println!("{}; {differing} of the maps have a call that differs", bases::told(bases));
    check.print();
    println!("time: {:.1} s", start.elapsed().as_secs_f64());
    differing == 0
}

impl Counts {
    fn print(&self) {
        println!(
            "tiles in the theorem: {}, of which {} are small, {} of them marked empty",
            self.tiles, self.small, self.empty
        );
        println!("tiles that do not collect: {}", self.refused);
        println!("tiles with a stored size that is not the decoded length: {}", self.inexact);
        println!("lists of up to {CALLS} calls: {}", self.lists);
        println!("long random lists: {}", self.long_lists);
        println!("calls held to the book: {}", self.calls);
    }
}

fn of_map(check: &mut Check, counts: &mut Counts, base: &Base, each: u64) -> Checked {
    let mut random = Random::new(SEED);
    let opening = opening::of(&mut Check::default(), &base.map)?;
    let (map, (layout, lists)) = (&base.map[..], opening::ours(&base.map));
    for &at in &base.tiles {
        let place = |why| format!("sub file {}, tile {}: {why}", at.sub_file, at.tile);
        let interval = library::interval(map, &layout, at.sub_file as usize).interval;
        let ask = Ask { map, layout, tags: lists.lend(), as_named: true, interval, at };
        let Some(tile) = Collected::of(&opening, ask, counts).map_err(place)? else {
            continue;
        };
        of_tile(check, counts, &tile, each, &mut random).map_err(place)?;
    }
    Ok(())
}

fn of_tile(
    check: &mut Check,
    counts: &mut Counts,
    tile: &Collected,
    each: u64,
    random: &mut Random,
) -> Checked {
    counts.tiles += 1;
    let small = tile.features() <= SMALL;
    counts.small += u64::from(small);
    counts.empty += u64::from(tile.is_empty());
    let mut lent = Lent::default();
    for zoom in tile.zooms() {
        let state = stream(&tile.ask, zoom)?;
        let place = |why| format!("zoom {zoom}, {why}");
        let book = tile.book(zoom);
        let mut run = Run { book, check, lent: &mut lent, calls: Vec::new(), made: 0 };
        if small {
            counts.lists += run.all(state, CALLS).map_err(place)?;
        }
        for _ in 0..each {
            run.random(state, lists::long(tile.features()), random).map_err(place)?;
            counts.long_lists += 1;
        }
        counts.calls += run.made;
    }
    Ok(())
}

/// "A tile collects if collecting isn't refused; its stream then opens at every zoom."
fn stream(ask: &Ask, zoom: u8) -> Checked<State> {
    let mut state = [WORD; 8];
    let opened = library::stream_open(ask, ask.at.sub_file, zoom, &mut state);
    match opened.number {
        0 => Ok(state),
        number => Err(format!("the stream at zoom {zoom} does not open: {number}")),
    }
}
