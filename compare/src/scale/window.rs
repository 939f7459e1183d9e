//! The tiles that a window touches: our library's answers against walks that cannot go wrong in the same way. A window with
//! few sub tiles is walked over sub tile by sub tile, a grid with few tiles tile by tile and cell by cell, whatever the
//! window; where both are vast, single tiles are found by counting in 128 bits. Where two of these answer, they must agree.

mod limits;
mod model;
mod tally;

use std::time::Instant;

use mapsforge::{raw, word};

use super::check::{caught, Checked};
use super::{Options, ENOUGH};
use crate::random::Random;
use model::{Model, Tile};
use tally::Tally;

/// A grid's x_min, y_min, x_max and y_max, and a window's left, top, right and bottom.
type Grid = [i32; 4];
type Window = [i64; 4];

const CASES: u64 = 3_000_000;
const QUICK_CASES: u64 = 300_000;
/// Of more tiles than this only some are asked for.
const ALL: u64 = 48;
/// What lent words hold before a call.
const LENT: u64 = 555;

/// All windows at the limits, so many random ones, and the decisions; whether none differs, and all kinds came.
pub fn compare(options: &Options) -> bool {
    let start = Instant::now();
    let mut tally = Tally::default();
    let mut differing = 0;
    let mut ask =
        |tally: &mut Tally, name: &str, grid: Grid, window: Window, random: &mut Random| {
            let compared = caught(|| of_window(tally, grid, window, random));
            if let Err(why) = compared.and_then(|compared| compared) {
                println!("DIFFERS: {name}, grid {grid:?}, window {window:?}: {why}");
                differing += 1;
            }
            differing < ENOUGH
        };
    let mut random = Random::of_case(options.seed, 0);
    let mut going = options.only.is_some()
        || limits::windows()
            .all(|(grid, window)| ask(&mut tally, "at a limit", grid, window, &mut random));
    let all = 0..options.cases(CASES, QUICK_CASES);
    for case in options.only.map_or(all, |only| only..only + 1) {
        if !going {
            break;
        }
        let mut random = Random::of_case(options.seed, case + 1);
        let (grid, window) = limits::random(&mut random);
        going = ask(&mut tally, &format!("case {case}"), grid, window, &mut random);
    }
    let decided = decisions(&mut tally, options).unwrap_or_else(|why| {
        println!("DIFFERS: {why}");
        1
    });
    tally.print(options.seed);
    println!("differ: {}", differing + decided);
    println!("time: {:.1} s", start.elapsed().as_secs_f64());
    differing + decided == 0 && (options.only.is_some() || tally.all_came())
}

/// A window on a grid: how many tiles, and each of them, or some.
fn of_window(tally: &mut Tally, grid: Grid, window: Window, random: &mut Random) -> Checked {
    let model = Model::of(grid, window)?;
    tally.window(grid, window, &model);
    let count = counted(grid, window, &model)?;
    for k in asked(count, model.columns(), random) {
        let tile = tile(grid, window, k, &model)?;
        tally.tile(tile, k >= count);
    }
    Ok(())
}

/// Which tiles are asked for: all of few, else those at the ends of the list and of its rows, and some between; and some
/// behind the last.
fn asked(count: u64, columns: u64, random: &mut Random) -> Vec<u64> {
    let mut asked: Vec<u64> = (0..count.min(ALL)).collect();
    if count > ALL {
        let rows = count / columns;
        asked.extend([columns - 1, columns, columns + 1, count / 2, count - columns, count - 1]);
        asked.extend([random.next() % count, random.next() % rows * columns]);
        asked.retain(|&k| k < count);
    }
    asked.extend([count, count + 1, count + random.next() % (1 << 40), u64::MAX]);
    asked
}

/// Our count, which must be the model's; 0 where the grid is refused.
fn counted(grid: Grid, window: Window, model: &Model) -> Checked<u64> {
    let mut words = [LENT; word::WINDOW_COUNT_WORDS];
    let number = raw::window_count(grid, window, &mut words);
    let mut known = [LENT; word::WINDOW_COUNT_WORDS];
    if let Some(count) = model.count() {
        known[word::WINDOW_COUNT_TILES] = count;
    }
    same("the count", (number, words), (model.number(), known))?;
    Ok(model.count().unwrap_or(0))
}

/// Our tile k, which must be the model's.
fn tile(grid: Grid, window: Window, k: u64, model: &Model) -> Checked<Option<Tile>> {
    let mut words = [LENT; word::WINDOW_TILE_WORDS];
    let mut at = [LENT as i64; word::WINDOW_TILE_NUMBERS];
    let number = raw::window_tile(grid, window, k, &mut words, &mut at);
    let mut known = ([LENT; word::WINDOW_TILE_WORDS], [LENT as i64; word::WINDOW_TILE_NUMBERS]);
    let tile = model.tile(k);
    if model.count().is_some() {
        known.0[word::WINDOW_TILE_THERE] = u64::from(tile.is_some());
    }
    if let Some(Tile { x, y, number, mask }) = tile {
        known.0[word::WINDOW_TILE_NUMBER] = number;
        known.0[word::WINDOW_TILE_MASK] = mask.into();
        known.1 = [x, y].map(i64::from);
    }
    same(&format!("tile {k}"), (number, (words, at)), (model.number(), known))?;
    Ok(tile)
}

fn same<T: PartialEq + std::fmt::Debug>(what: &str, ours: T, known: T) -> Checked {
    if ours == known {
        return Ok(());
    }
    Err(format!("{what} is {ours:?}, and should be {known:?}"))
}

/// Every bitmap with masks of one and two cells, none, all, and random ones; in a long run all pairs.
fn decisions(tally: &mut Tally, options: &Options) -> Checked<u64> {
    let mut random = Random::of_case(options.seed, u64::MAX);
    let mut masks = vec![0, u16::MAX];
    for a in 0..16 {
        masks.extend((0..=a).map(|b| 1 << a | 1 << b));
    }
    masks.extend((0..100).map(|_| random.next() as u16));
    if !options.quick && options.only.is_none() {
        masks = (0..=u16::MAX).collect();
    }
    for &mask in &masks {
        for bitmap in 0..=u16::MAX {
            let shared = model::shares(bitmap, mask);
            if raw::shares_cell(bitmap, mask) != shared {
                return Err(format!("bitmap {bitmap:04x}, mask {mask:04x}: {shared} is right"));
            }
            tally.decision(shared);
        }
    }
    Ok(0)
}
