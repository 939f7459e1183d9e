//! `mapsforge tiles`

use crate::args::Args;
use crate::info::extent;
use crate::input::Source;
use crate::output::Unheard;
use crate::{Outcome, Status};
use mapsforge::check;
use mapsforge::{SubFile, TilePlace};
use std::io::{self, Write};

pub const HELP: &str = "\
mapsforge tiles MAP

The sub files of a map, and each tile: its number, column and row, whether it is marked as
water, its numbers of points and ways, whether it is empty, or why it is refused. A tile is
empty if the index says so: it has no bytes in the map.

The status is 1 if a tile is refused, 2 if the file is no map.
";

pub fn run(args: &Args, out: &mut dyn Write) -> Outcome {
    let [path] = args.plain(["a MAP"])?;
    let source = Source::named(path);
    let file = source.open()?;
    let map = source.map(&file)?;
    let mut out = Unheard::new(out);
    let findings = check::map(&map);
    let mut status = Status::Well;
    for number in 0..map.intervals().len() {
        let stopped = findings
            .iter()
            .find(|finding| finding.covered.is_some_and(|covered| covered.sub_file == number));
        let listed = match stopped {
            Some(finding) => {
                writeln!(out, "{finding}")?;
                Status::Found
            }
            None => list(&map.sub_file(number)?, &mut out)?,
        };
        status = status.max(listed);
    }
    Ok(status)
}

fn list(sub_file: &SubFile<'_, '_>, out: &mut dyn Write) -> Outcome {
    let interval = sub_file.interval();
    writeln!(
        out,
        "sub file {}: base zoom {}, zoom {} to {}, {}",
        sub_file.number(),
        interval.base_zoom,
        interval.min_zoom,
        interval.max_zoom,
        extent(sub_file)
    )?;
    writeln!(out, "{:>8} {:>8} {:>8}  water {:>8} {:>8}", "tile", "x", "y", "points", "ways")?;
    let mut status = Status::Well;
    for place in sub_file.tiles()? {
        status = status.max(line(sub_file, place, out)?);
    }
    Ok(status)
}

fn line(sub_file: &SubFile<'_, '_>, place: TilePlace, out: &mut dyn Write) -> io::Result<Status> {
    let TilePlace { number, x, y } = place;
    let water = sub_file.entry(number).is_ok_and(|entry| entry.water);
    let water = if water { "yes" } else { "" };
    write!(out, "{number:>8} {x:>8} {y:>8}  {water:<5} ")?;
    match sub_file.collect(number) {
        Ok(tile) => {
            write!(out, "{:>8} {:>8}", tile.point_count(), tile.way_count())?;
            let empty = sub_file.is_empty(number).unwrap_or(false);
            writeln!(out, "{}", note(empty, tile.exact()))?;
            Ok(Status::Well)
        }
        Err(refusal) => {
            writeln!(out, "refused with {}: {}", refusal.number(), refusal.of_tile(number))?;
            Ok(Status::Found)
        }
    }
}

/// What is to be said of a tile besides its counts.
fn note(empty: bool, exact: bool) -> &'static str {
    match (empty, exact) {
        (true, _) => "  empty",
        (false, true) => "",
        (false, false) => "  a stored size is wrong: see check",
    }
}
