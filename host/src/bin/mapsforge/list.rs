//! `mapsforge list`

use crate::args::{Args, Choice};
use crate::input::Source;
use crate::output::{feature as told, position, short};
use crate::query::{Query, BBOX, TAG, ZOOM};
use crate::{refused, Outcome};
use std::io::Write;

pub const HELP: &str = "\
mapsforge list MAP [--tag TAGS] [--bbox SOUTH,WEST,NORTH,EAST] [--zoom ZOOM]

Lists the features of a map, one in a line: position (of a way: its first node), kind, name,
tags and tile. A way is stored in each tile that it touches, and listed for each of them.

    --tag TAGS     only those with one of these tags, KEY[=VALUE],...; name=NAME is one too
    --bbox BOX     only those that touch this box, in degrees
    --zoom ZOOM    those shown at this zoom, by default the highest of the map

The status is 1 if a tile is refused: its features are then missing.
";

pub const OPTIONS: &[Choice] = &[TAG, BBOX, ZOOM];

pub fn run(args: &Args, out: &mut dyn Write) -> Outcome {
    let [path] = args.plain(["a MAP"])?;
    let query = Query::new(args)?;
    let source = Source::named(path);
    let file = source.open()?;
    let map = source.map(&file)?;
    let missing = query.each(&map, |sub_file, place, feature| {
        let at = feature.position().map_or("no nodes".into(), position);
        let (kind, tile) = (feature.kind.word(), short(sub_file, place));
        Ok(writeln!(out, "{at:<22} {kind:<5}  {}  tile {tile}", told(&feature))?)
    })?;
    refused(out, &missing)
}
