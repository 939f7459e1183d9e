//! `mapsforge info`

use crate::args::{Args, Choice};
use crate::input::Source;
use crate::output::{clean, count, date, position};
use crate::{Outcome, Status};
use mapsforge::{Map, Part, SubFile, TagNames};
use std::io::{self, Write};

pub const HELP: &str = "\
mapsforge info MAP [--tags]

What the header of a map says: version, size, box, languages, tags, sub files.

    --tags    the names of all tags too, with their numbers

The status is 1 if the tiles of a sub file cannot be named, 2 if the file is no map.
";

pub const OPTIONS: &[Choice] = &[Choice { long: "--tags", short: None, valued: false }];

pub fn run(args: &Args, out: &mut dyn Write) -> Outcome {
    let [path] = args.plain(["a MAP"])?;
    let source = Source::named(path);
    let file = source.open()?;
    let map = source.map(&file)?;
    fields(&map, out)?;
    let mut status = Status::Well;
    for (number, interval) in map.intervals().iter().enumerate() {
        write!(
            out,
            "  sub file {number}: base zoom {}, zoom {} to {}, byte {}, {}",
            interval.base_zoom,
            interval.min_zoom,
            interval.max_zoom,
            interval.start,
            count(interval.size, "byte")
        )?;
        match map.sub_file(number).and_then(|found| Ok((found, found.tile_count()?))) {
            Ok((found, tiles)) => writeln!(out, ", {}: {}", count(tiles, "tile"), extent(&found))?,
            Err(refusal) => {
                status = Status::Found;
                writeln!(out, "; refused with {}: {refusal}", refusal.number())?;
            }
        }
    }
    if args.has("--tags") {
        tags("point", map.point_tags(), out)?;
        tags("way", map.way_tags(), out)?;
    }
    Ok(status)
}

/// The columns and rows of a sub file.
pub fn extent(sub_file: &SubFile<'_, '_>) -> String {
    let grid = sub_file.grid();
    format!("columns {} to {}, rows {} to {}", grid.x_min, grid.x_max, grid.y_min, grid.y_max)
}

fn fields(map: &Map<'_>, out: &mut dyn Write) -> io::Result<()> {
    let header = map.header();
    let covered = header.bounding_box;
    let mut line = |name: &str, text: String| writeln!(out, "{name:<12} {text}");
    line("version", header.version.to_string())?;
    line("size", size(map))?;
    line("made", date(header.date))?;
    line(
        "box",
        format!(
            "{:.6} to {:.6} north, {:.6} to {:.6} east",
            covered.south, covered.north, covered.west, covered.east
        ),
    )?;
    line("projection", clean(&header.projection.to_text()))?;
    line("tile size", format!("{} pixels", header.tile_size))?;
    line("debug", if header.debug() { "yes, with signatures" } else { "no" }.into())?;
    if let Some(start) = header.start_position {
        line("start at", position(start))?;
    }
    if let Some(zoom) = header.start_zoom {
        line("start zoom", zoom.to_string())?;
    }
    let texts = [
        ("languages", header.language),
        ("comment", header.comment),
        ("made by", header.created_by),
    ];
    for (name, text) in texts {
        if let Some(text) = text.map(Part::to_text) {
            line(name, clean(&text))?;
        }
    }
    line("point tags", map.point_tags().len().to_string())?;
    line("way tags", map.way_tags().len().to_string())?;
    line("sub files", map.intervals().len().to_string())
}

/// The file's size, and what its header says where that is another.
fn size(map: &Map<'_>) -> String {
    let actual = map.bytes().len() as u64;
    let stored = map.header().file_size;
    let text = count(actual, "byte");
    if stored == actual {
        return text;
    }
    format!("{text}, but the header says {stored}")
}

fn tags(kind: &str, names: &TagNames<'_>, out: &mut dyn Write) -> io::Result<()> {
    for (id, tag) in names.iter().enumerate() {
        writeln!(out, "{kind} tag {id}: {}", clean(&tag.text.to_text()))?;
    }
    Ok(())
}
