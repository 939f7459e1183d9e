//! Undamaged maps, compared in full.

use std::collections::BTreeSet;

use mapsforge_rs::types::{MapFile, MapHeader};

use super::bases::Base;
use super::check::{Check, Checked};
use super::known::{self, Plan, Policy};
use super::lent::Lent;
use super::library::Ask;
use super::opening::{self, Opening, Said};
use super::streamed::{self, Question};
use super::{asked, collected, foreign, indexed, listed};
use crate::differences::header_parts;
use crate::random::Random;
use crate::source::Source;
use crate::tiles::Address;

/// Up to so many tiles of a grid all entries and numbers are compared; else so many of them.
const ALL_TILES: u64 = 1 << 13;
const SOME_TILES: u64 = 16;
/// One in so many places of a stream has a call that must be refused.
const REFUSED_CALLS: usize = 6;
/// So many times a tile is asked for by words that are not the map's own.
const FOREIGN: usize = 4;
/// So many times a feature of a tile is fetched by an altered list.
const ALTERED_LISTS: usize = 32;

/// Header, index and all tiles of a map.
pub fn compare(check: &mut Check, lent: &mut Lent, base: &Base, random: &mut Random) -> Checked {
    let map = &base.map[..];
    let opening = opening::of(check, map)?;
    let said = Said::of(map, &opening)?;
    header(check, map, &opening, &said, random)?;
    for text in header_parts(map).iter().flat_map(|parts| &parts.texts) {
        indexed::text(check, lent, &map[text.clone()], random)?;
    }
    let layout = said.layout();
    let ask = |at: &Address| {
        let interval = opening::interval(check, map, &layout, &opening, at.sub_file as usize)?;
        Ok(Ask { map, layout, tags: said.tags(), as_named: true, interval, at: *at })
    };
    let asks = base.tiles.iter().map(ask).collect::<Checked<Vec<_>>>()?;
    let mut file = opening.unwrap_or_else(|_| foreign::unopened(map));
    index(check, lent, &mut file, &asks, random)?;
    for ask in &asks {
        let place = |why| format!("sub file {}, tile {}: {why}", ask.at.sub_file, ask.at.tile);
        tile(check, lent, &mut file, ask, random).map_err(place)?;
        for _ in 0..FOREIGN {
            foreign::compare(check, lent, ask, random).map_err(place)?;
        }
    }
    Ok(())
}

fn header(
    check: &mut Check,
    map: &[u8],
    opening: &Opening,
    said: &Said,
    random: &mut Random,
) -> Checked {
    said.check(check, map, random)?;
    let tags = said.tags().starts.len();
    let lengths = [0, tags.saturating_sub(1), tags, tags + 1, 2 * tags + 9];
    for starts in lengths {
        for letters in lengths {
            said.check_with(check, map, [starts, letters])?;
        }
    }
    if let Ok(file) = opening {
        opening::tags(check, file, said)?;
    }
    let intervals =
        opening.as_ref().map_or(0, |file| file.header.zoom_interval_configuration.len());
    let layout = &said.layout();
    for sub_file in (0..=intervals).chain([255, usize::MAX]) {
        opening::interval(check, map, layout, opening, sub_file)?;
    }
    (0..=u8::MAX).try_for_each(|zoom| opening::sub_file(check, map, layout, opening, zoom))
}

/// Count, numbers and entries of each grid that is asked for, and a tile of no sub file by it.
fn index(
    check: &mut Check,
    lent: &mut Lent,
    file: &mut MapFile<Source>,
    asks: &[Ask],
    random: &mut Random,
) -> Checked {
    let mut seen = BTreeSet::new();
    for ask in asks {
        let Address { sub_file, grid, .. } = ask.at;
        if !seen.insert((sub_file, grid.x_min, grid.y_min, grid.x_max, grid.y_max)) {
            continue;
        }
        indexed::count(check, file, ask)?;
        let count = grid.tiles().map_or(1, u64::from);
        let first = if count > ALL_TILES { SOME_TILES } else { count };
        for tile in (0..=first).chain([count - 1, count, u64::MAX]) {
            indexed::entry(check, file, &Ask { at: Address { tile, ..ask.at }, ..*ask })?;
        }
        for place in places(&ask.at) {
            indexed::tile(check, file, ask, place)?;
        }
        missing(check, lent, file, ask, random).map_err(|why| format!("no sub file: {why}"))?;
    }
    Ok(())
}

/// An interval of zeros is that of a sub file behind the last one.
fn missing(
    check: &mut Check,
    lent: &mut Lent,
    file: &mut MapFile<Source>,
    ask: &Ask,
    random: &mut Random,
) -> Checked {
    let sub_file = file.header.zoom_interval_configuration.len() as u64;
    let ask = Ask { interval: [0; 6], at: Address { sub_file, ..ask.at }, ..*ask };
    asked::grid(check, file, &ask, random)?;
    asked::tile(check, lent, file, &ask, random)
}

/// All places of a grid and those around it; of a large one, its corners and those around them.
fn places(at: &Address) -> Vec<[i32; 2]> {
    let grid = at.grid;
    let large = grid.tiles().is_none_or(|tiles| u64::from(tiles) > ALL_TILES);
    let side = |min: i32, max: i32| -> Vec<i32> {
        let (before, behind) = (min.saturating_sub(1), max.saturating_add(1));
        if large {
            return vec![before, min, max, behind];
        }
        (before..=behind).collect()
    };
    let rows = side(grid.y_min, grid.y_max);
    let columns = side(grid.x_min, grid.x_max);
    columns.iter().flat_map(|&x| rows.iter().map(move |&y| [x, y])).collect()
}

/// A tile collected, all its features, and its streams at each zoom.
fn tile(
    check: &mut Check,
    lent: &mut Lent,
    file: &mut MapFile<Source>,
    ask: &Ask,
    random: &mut Random,
) -> Checked {
    indexed::entry(check, file, ask)?;
    let tile = known::tile(check, file, ask)?;
    let places = collected::collect(check, ask, &tile, random)?;
    let features = tile.as_ref().map_or(0, |tile| tile.texts.len() as u64);
    for k in (0..=features).chain([u64::MAX]) {
        let feature = |why| format!("feature {k}: {why}");
        collected::fetch(check, lent, ask, (&tile, &places), k, random).map_err(feature)?;
    }
    for _ in 0..ALTERED_LISTS {
        listed::compare(check, lent, file, ask, &places, random)?;
    }
    listed::alone(check, file, ask, (&tile, &places), random)?;
    for zoom in zooms(&file.header, &ask.at) {
        let some = Policy::Random(random.next());
        for policy in [Policy::All, Policy::None, Policy::TwoOfThree, some] {
            let number = random.sub_file_number(ask.at.sub_file);
            let question = Question { ask: *ask, number, zoom, refused_calls: REFUSED_CALLS };
            let place = |why| format!("stream at zoom {zoom}, ways {policy:?}: {why}");
            streamed::stream(check, lent, file, &question, &Plan::of(policy), random)
                .map_err(place)?;
        }
    }
    Ok(())
}

/// Those of the sub file's interval and one beside it on each side.
pub fn zooms(header: &MapHeader, at: &Address) -> Vec<u8> {
    let intervals = &header.zoom_interval_configuration;
    let interval = usize::try_from(at.sub_file).ok().and_then(|k| intervals.get(k));
    interval.map_or(vec![0, u8::MAX], |interval| {
        let (lowest, highest) = (interval.min_zoom_level, interval.max_zoom_level);
        let (low, high) = (lowest.min(highest), lowest.max(highest));
        (low.saturating_sub(1)..=high.saturating_add(1)).collect()
    })
}
