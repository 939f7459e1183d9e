//! Which tile is meant.

use crate::Failure;
use mapsforge::{Map, SubFile, TilePlace};
use std::str::FromStr;

/// A tile as a person names it.
#[derive(Clone, Copy, Debug, PartialEq)]
enum Target {
    Number(usize, usize),
    Place(usize, i32, i32),
    Zoomed(u8, u32, u32),
}

impl FromStr for Target {
    type Err = ();

    fn from_str(text: &str) -> Result<Target, ()> {
        fn number<T: FromStr>(text: &str) -> Result<T, ()> {
            text.parse().map_err(|_| ())
        }
        if let Some((sub_file, rest)) = text.split_once(':') {
            let sub_file = number(sub_file)?;
            return match rest.split_once(',') {
                Some((x, y)) => Ok(Target::Place(sub_file, number(x)?, number(y)?)),
                None => Ok(Target::Number(sub_file, number(rest)?)),
            };
        }
        match text.split('/').collect::<Vec<_>>()[..] {
            [zoom, x, y] => Ok(Target::Zoomed(number(zoom)?, number(x)?, number(y)?)),
            _ => Err(()),
        }
    }
}

/// The tile that a word of the command line names.
pub fn find<'m, 'a>(map: &'m Map<'a>, text: &str) -> Result<(SubFile<'m, 'a>, TilePlace), Failure> {
    let target = text.parse().map_err(|()| {
        Failure::Mistake(format!(
            "{text:?} names no tile: write SUBFILE:NUMBER, SUBFILE:X,Y or ZOOM/X/Y"
        ))
    })?;
    match target {
        Target::Number(number, tile) => {
            let found = sub_file(map, number)?;
            let place = found.tile(tile).filter(|_| found.tile_count().is_ok());
            place.map(|place| (found, place)).ok_or_else(|| outside(&found, text))
        }
        Target::Place(number, x, y) => {
            let found = sub_file(map, number)?;
            let place = found.tile_at(x, y)?;
            place.map(|place| (found, place)).ok_or_else(|| outside(&found, text))
        }
        Target::Zoomed(zoom, x, y) => zoomed(map, text, zoom, x, y),
    }
}

/// The sub file that serves a zoom, by default the map's highest, and that zoom.
pub fn zoomed_sub_file<'m, 'a>(
    map: &'m Map<'a>,
    zoom: Option<u8>,
) -> Result<(SubFile<'m, 'a>, u8), Failure> {
    let highest = map.intervals().iter().map(|interval| interval.max_zoom).max();
    let Some(zoom) = zoom.or(highest) else {
        return Err(Failure::Mistake("the map has no sub file".into()));
    };
    match map.sub_file_for_zoom(zoom)? {
        Some(found) => Ok((found, zoom)),
        None => Err(Failure::Mistake(format!(
            "no sub file has zoom {zoom}: `mapsforge info` lists those of the map"
        ))),
    }
}

fn sub_file<'m, 'a>(map: &'m Map<'a>, number: usize) -> Result<SubFile<'m, 'a>, Failure> {
    let count = map.intervals().len();
    if number >= count {
        let most = if count == 0 {
            "the map has none".into()
        } else {
            format!("the last one is {}", count - 1)
        };
        return Err(Failure::Mistake(format!("there is no sub file {number}: {most}")));
    }
    Ok(map.sub_file(number)?)
}

/// The tile of the base zoom that a tile of another zoom lies in.
fn zoomed<'m, 'a>(
    map: &'m Map<'a>,
    text: &str,
    zoom: u8,
    x: u32,
    y: u32,
) -> Result<(SubFile<'m, 'a>, TilePlace), Failure> {
    let (found, _) = zoomed_sub_file(map, Some(zoom))?;
    let base = found.interval().base_zoom;
    if zoom < base {
        return Err(Failure::Mistake(format!(
            "{text} covers several tiles, for zoom {zoom} is kept in tiles of zoom {base}: name \
             one as {base}/X/Y or {}:NUMBER",
            found.number()
        )));
    }
    let up = u32::from(zoom - base);
    let at = |k: u32| i32::try_from(k.checked_shr(up).unwrap_or(0)).unwrap_or(i32::MAX);
    let place = found.tile_at(at(x), at(y))?;
    place.map(|place| (found, place)).ok_or_else(|| outside(&found, text))
}

fn outside(sub_file: &SubFile<'_, '_>, text: &str) -> Failure {
    let number = sub_file.number();
    match sub_file.tile_count() {
        Ok(count) => Failure::Mistake(format!(
            "there is no tile {text}: sub file {number} has tiles {number}:0 to {number}:{}, {}",
            count.saturating_sub(1),
            crate::info::extent(sub_file)
        )),
        Err(refusal) => refusal.into(),
    }
}
