//! What is asked of a damaged map and of one of its tiles.

use mapsforge_rs::types::MapFile;

use super::check::{Check, Checked};
use super::known::{self, Plan, Tile};
use super::lent::Lent;
use super::library::{Ask, Layout};
use super::opening::{self, Opening, Said};
use super::streamed::{self, Question};
use super::{collected, foreign, indexed, listed, way_data};
use crate::differences::tile::Opened;
use crate::random::Random;
use crate::source::Source;
use crate::tiles::Address;

/// One in so many places of a stream has a call that must be refused.
const REFUSED_CALLS: usize = 5;

/// Some of the header's tags and intervals.
pub fn of_header(
    check: &mut Check,
    map: &[u8],
    opening: &Opening,
    said: &Said,
    random: &mut Random,
) -> Checked {
    let intervals =
        opening.as_ref().map_or(0, |file| file.header.zoom_interval_configuration.len());
    let layout = &said.layout();
    opening::interval(check, map, layout, opening, random.below(intervals + 1))?;
    opening::sub_file(check, map, layout, opening, random.byte())?;
    let Ok(file) = opening else { return Ok(()) };
    for (ways, tags) in [(false, &file.header.poi_tags), (true, &file.header.way_tags)] {
        opening::tag(check, file, said, ways, random.below(tags.len() + 1))?;
    }
    Ok(())
}

/// Opening, the sub file's interval, the tile by these words, and at times the rest.
pub fn of_tile(
    check: &mut Check,
    lent: &mut Lent,
    map: &[u8],
    opening: &mut Opening,
    said: &Said,
    at: Address,
    random: &mut Random,
) -> Checked {
    said.check(check, map, random)?;
    let at = if random.below(32) == 0 { random.other_place(at) } else { at };
    let layout = said.layout();
    let interval = opening::interval(check, map, &layout, opening, at.sub_file as usize)?;
    let ask = Ask { map, layout, tags: said.tags(), as_named: true, interval, at };
    match opening {
        Ok(file) => tile(check, lent, file, &ask, random)?,
        Err(_) => tile(check, lent, &mut foreign::unopened(map), &ask, random)?,
    }
    if random.below(8) == 0 {
        others(check, lent, map, &layout, opening, random)?;
    }
    Ok(())
}

/// Entry, collecting, some fetches, a stream, and at times the grid. The file has the header that the words
/// say.
pub fn tile(
    check: &mut Check,
    lent: &mut Lent,
    file: &mut MapFile<Source>,
    ask: &Ask,
    random: &mut Random,
) -> Checked {
    indexed::entry(check, file, ask)?;
    let tile = known::tile(check, file, ask)?;
    features(check, lent, file, ask, &tile, random)?;
    let zoom = random.zoom(&file.header, &ask.at);
    let number = random.sub_file_number(ask.at.sub_file);
    let plan = Plan::of(random.policy());
    let question = Question { ask: *ask, number, zoom, refused_calls: REFUSED_CALLS };
    let place = |why| format!("stream at zoom {zoom}, ways {:?}: {why}", plan.policy);
    streamed::stream(check, lent, file, &question, &plan, random).map_err(place)?;
    if random.below(8) == 0 {
        grid(check, file, ask, random)?;
    }
    Ok(())
}

/// Collecting, some fetches by the list that it filled, and one by an altered list.
fn features(
    check: &mut Check,
    lent: &mut Lent,
    file: &MapFile<Source>,
    ask: &Ask,
    tile: &Tile,
    random: &mut Random,
) -> Checked {
    let places = collected::collect(check, ask, tile, random)?;
    for k in random.features(tile.as_ref().map_or(0, |tile| tile.texts.len())) {
        let place = |why| format!("feature {k}: {why}");
        collected::fetch(check, lent, ask, (tile, &places), k, random).map_err(place)?;
    }
    listed::compare(check, lent, file, ask, &places, random)
}

/// How many tiles there are, and the number of one in the grid or beside it.
pub fn grid(check: &mut Check, file: &MapFile<Source>, ask: &Ask, random: &mut Random) -> Checked {
    indexed::count(check, file, ask)?;
    let grid = ask.at.grid;
    let near = |random: &mut Random, min: i32, max: i32| {
        let side = [min, max, min.saturating_add(random.below(5) as i32)][random.below(3)];
        side.saturating_add(random.below(3) as i32 - 1)
    };
    let place = [near(random, grid.x_min, grid.x_max), near(random, grid.y_min, grid.y_max)];
    indexed::tile(check, file, ask, place)
}

/// Columns, a way's data and a text.
fn others(
    check: &mut Check,
    lent: &mut Lent,
    map: &[u8],
    layout: &Layout,
    opening: &Opening,
    random: &mut Random,
) -> Checked {
    opening::sub_file(check, map, layout, opening, random.below(32) as u8)?;
    let zoom = random.below(70) as u8;
    indexed::column(check, random.longitude(), zoom)?;
    indexed::longitude(check, random.next() as u32 >> random.below(32), zoom)?;
    if let Ok(file) = opening {
        let question = random.way_data(map.len());
        way_data::compare(check, lent, Opened::of(file), question, random)?;
    }
    let start = random.below(map.len() + 1);
    let longest = [4, 16, 64][random.below(3)].min(map.len() - start + 1);
    let size = random.below(longest);
    indexed::text(check, lent, &map[start..start + size], random)
}
