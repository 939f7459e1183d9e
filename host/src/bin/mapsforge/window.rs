//! `mapsforge window`

use crate::args::{Args, Choice};
use crate::info::extent;
use crate::input::Source;
use crate::json::Value;
use crate::output::{count, Unheard};
use crate::query::ZOOM;
use crate::{refused, target, Failure, Outcome, Status};
use mapsforge::{Refusal, Step, SubFile, Window, WindowTile, WindowTiles};
use std::io::{self, Write};

pub const HELP: &str = "\
mapsforge window MAP LEFT TOP RIGHT BOTTOM [--zoom ZOOM] [--json]

Lists the tiles that a window touches, row by row: number, column and row, the touched cells,
and what a stream gives there: its points, and how many ways it accepts and declines. A way is
declined if it touches none of these cells.

A window is a rectangle of sub tiles, both ends included. Sub tiles are two zoom levels below
the base zoom of the sub file, 4 by 4 to a tile: tile X,Y has columns 4 X to 4 X + 3 and rows
4 Y to 4 Y + 3. `mapsforge tiles MAP` lists the tiles. The cells are given as a number in base
16, the top left one the highest bit, and as four rows.

    --zoom ZOOM    of the sub file that has this zoom, by default the highest of the map
    --json         one document for a program; docs/JSON.md describes it

A window with LEFT above RIGHT or TOP above BOTTOM touches no tile. The status is 1 if a tile
is refused, 2 if the file is no map or no sub file has the zoom.
";

pub const OPTIONS: &[Choice] = &[ZOOM, Choice { long: "--json", short: None, valued: false }];

/// The window that four words of the command line are.
pub fn parsed(words: [&str; 4]) -> Option<Window> {
    let numbers = words.map(|word| word.trim().parse::<i64>().ok());
    let [Some(left), Some(top), Some(right), Some(bottom)] = numbers else {
        return None;
    };
    Some(Window { left, top, right, bottom })
}

pub fn run(args: &Args, out: &mut dyn Write) -> Outcome {
    let [path, ends @ ..] = args.plain(["a MAP", "LEFT", "TOP", "RIGHT", "BOTTOM"])?;
    let zoom: Option<u8> = args.number("--zoom", "a number from 0 to 255")?;
    let window = parsed(ends).ok_or_else(|| {
        let given = ends.join(" ");
        args.mistake(&format!(
            "takes whole numbers of 64 bits for LEFT TOP RIGHT BOTTOM, not {given:?}"
        ))
    })?;
    let source = Source::named(path);
    let file = source.open()?;
    let map = source.map(&file)?;
    let (sub_file, zoom) = target::zoomed_sub_file(&map, zoom)?;
    let tiles = sub_file.window(window, zoom)?;
    if tiles.len() > 0 {
        sub_file.whole_index()?;
    }
    let mut out = Unheard::new(out);
    if args.has("--json") {
        return document(&source.name, window, zoom, tiles, &mut out);
    }
    listed(window, zoom, tiles, &mut out)
}

/// What a stream of a tile gives.
#[derive(Default)]
struct Streamed {
    points: u64,
    accepted: u64,
    declined: u64,
}

fn streamed(tile: &WindowTile<'_, '_>) -> Result<Streamed, Refusal> {
    let mut stream = tile.stream()?;
    let mut come = Streamed::default();
    loop {
        match stream.next()? {
            Step::Point(_) => come.points += 1,
            Step::Way(head) if tile.accepts(&head) => {
                stream.accept()?;
                come.accepted += 1;
            }
            Step::Way(_) => {
                stream.decline()?;
                come.declined += 1;
            }
            Step::End(_) => return Ok(come),
        }
    }
}

/// Why a window touches no tile.
pub fn untouched(window: Window, sub_file: &SubFile<'_, '_>) -> String {
    let Window { left, top, right, bottom } = window;
    if left > right {
        return format!("LEFT is above RIGHT: {left} and {right}");
    }
    if top > bottom {
        return format!("TOP is above BOTTOM: {top} and {bottom}");
    }
    let grid = sub_file.grid();
    let [x, y, last_x, last_y] = grid.corners().map(|side| 4 * i64::from(side));
    format!(
        "sub file {} has sub tiles in columns {x} to {} and rows {y} to {}",
        sub_file.number(),
        last_x + 3,
        last_y + 3
    )
}

fn listed(window: Window, zoom: u8, tiles: WindowTiles<'_, '_>, out: &mut dyn Write) -> Outcome {
    let sub_file = tiles.sub_file();
    let base = sub_file.interval().base_zoom;
    let Window { left, top, right, bottom } = window;
    writeln!(
        out,
        "zoom {zoom}: sub file {}, base zoom {base}, {}",
        sub_file.number(),
        extent(&sub_file)
    )?;
    writeln!(
        out,
        "window: sub tiles of zoom {}, columns {left} to {right}, rows {top} to {bottom}",
        u16::from(base) + 2
    )?;
    let number = tiles.len() as u64;
    if number == 0 {
        writeln!(out, "no tiles: {}", untouched(window, &sub_file))?;
        return Ok(Status::Well);
    }
    writeln!(out, "{}", count(number, "tile"))?;
    writeln!(
        out,
        "{:>8} {:>8} {:>8}  mask  {:<19}  {:>8} {:>8} {:>8}",
        "tile", "x", "y", "cells", "points", "accepted", "declined"
    )?;
    let mut missing = Vec::new();
    for tile in tiles {
        missing.extend(line(&tile, out)?);
    }
    refused(out, &missing)
}

/// A tile in a line; gives what was refused.
fn line(tile: &WindowTile<'_, '_>, out: &mut dyn Write) -> io::Result<Option<Failure>> {
    let place = tile.place;
    write!(out, "{:>8} {:>8} {:>8}  ", place.number, place.x, place.y)?;
    write!(out, "{:04x}  {}  ", tile.mask, cells(tile.mask))?;
    match streamed(tile) {
        Ok(Streamed { points, accepted, declined }) => {
            writeln!(out, "{points:>8} {accepted:>8} {declined:>8}")?;
            Ok(None)
        }
        Err(refusal) => {
            writeln!(out, "refused with {}", refusal.number())?;
            Ok(Some(crate::of_tile(place)(refusal)))
        }
    }
}

/// The cells of a mask, in four rows.
fn cells(mask: u16) -> String {
    let row = |row: u32| -> String {
        (0..4).map(|k| if mask << (4 * row + k) & 0x8000 != 0 { '#' } else { '.' }).collect()
    };
    (0..4).map(row).collect::<Vec<_>>().join(" ")
}

fn document(
    map: &str,
    window: Window,
    zoom: u8,
    tiles: WindowTiles<'_, '_>,
    out: &mut dyn Write,
) -> Outcome {
    let (sub_file, number) = (tiles.sub_file(), tiles.len() as u64);
    let Window { left, top, right, bottom } = window;
    let mut status = Status::Well;
    let mut listed = Vec::new();
    for tile in tiles {
        let value = tile_value(&tile);
        status = status.max(value.1);
        listed.push(value.0);
    }
    let document = Value::object([
        ("format", Value::text("mapsforge-window")),
        ("version", Value::Whole(1)),
        ("status", Value::Whole(status as u64)),
        ("map", Value::text(map)),
        ("zoom", Value::Whole(zoom.into())),
        ("sub_file", Value::Whole(sub_file.number() as u64)),
        ("tile_zoom", Value::Whole(sub_file.interval().base_zoom.into())),
        ("left", Value::Signed(left)),
        ("top", Value::Signed(top)),
        ("right", Value::Signed(right)),
        ("bottom", Value::Signed(bottom)),
        ("tile_count", Value::Whole(number)),
        ("tiles", Value::List(listed)),
    ]);
    writeln!(out, "{document}")?;
    Ok(status)
}

fn tile_value(tile: &WindowTile<'_, '_>) -> (Value, Status) {
    let (come, refusal) = match streamed(tile) {
        Ok(come) => (Some(come), None),
        Err(refusal) => (None, Some(refusal)),
    };
    let number = |of: fn(&Streamed) -> u64| Value::optional(come.as_ref().map(of), Value::Whole);
    let value = Value::object([
        ("tile", Value::Whole(tile.place.number as u64)),
        ("tile_x", Value::Signed(tile.place.x.into())),
        ("tile_y", Value::Signed(tile.place.y.into())),
        ("mask", Value::Whole(tile.mask.into())),
        ("points", number(|come| come.points)),
        ("accepted", number(|come| come.accepted)),
        ("declined", number(|come| come.declined)),
        ("refusal", Value::optional(refusal, |refusal| Value::Whole(refusal.number()))),
    ]);
    (value, Status::well_if(refusal.is_none()))
}

#[cfg(test)]
mod tests {
    use super::cells;

    #[test]
    fn cells_stand_row_by_row() {
        assert_eq!(cells(0x8001), "#... .... .... ...#");
        assert_eq!(cells(0x1100), "...# ...# .... ....");
        assert_eq!(cells(0xffff), "#### #### #### ####");
    }
}
