//! `mapsforge svg`

use crate::args::{self, Args, Choice};
use crate::draw::part::{declined, How, Part};
use crate::draw::scene::Declined;
use crate::input::Source;
use crate::output::Unheard;
use crate::{result, rules, target, window, Failure, Outcome, Status};
use mapsforge::Map;
use std::io::{self, Write};

pub const HELP: &str = "\
mapsforge svg MAP TILE [-o FILE] [--zoom ZOOM] [--as list|panel] [--rules FILE] [--both] ...
mapsforge svg MAP --at LAT,LON [--size METRES] ...
mapsforge svg MAP --window LEFT,TOP,RIGHT,BOTTOM ...

Draws a tile as an SVG, or a square around a place, over as many tiles as it needs, or a window
of sub tiles (see `mapsforge window`): without the ways that touch none of its cells, and in a
dashed frame where it is no square. TILE is SUBFILE:NUMBER, SUBFILE:X,Y (at the sub file's base
zoom) or ZOOM/X/Y. A name for which there is no room is moved. If that does not help, its
feature gets a number, and the name stands in a legend below. A line below says how many of
the tiles are empty.

    -o, --output FILE    to this file instead of standard output
    --zoom ZOOM          only what is shown at this zoom
    --at LAT,LON         around this place, in degrees
    --size METRES        the side of the square, by default 1000
    --window ENDS        these sub tiles, both ends included
    --as list            as a list reads the map: every way is decoded (the default)
    --as panel           as a panel reads it: it declines some ways, by their stored sizes
    --decline TAGS       the tags of these ways, by default highway,building
    --rules FILE         as a panel that shows the ways of these showing rules, at the zoom
                         asked for and else at the sub file's highest (see `mapsforge rules`)
    --both               list and panel side by side, with what differs in red; what the
                         panel declines on purpose is pale, without names
    --must-show TAGS     each feature with one of these tags must have a label
    --language LANGUAGE  names in this language, where the map has them

TAGS is KEY[=VALUE],... The status is 1 if a feature that must be shown has no label, if the
picture has no such feature, if list and panel differ (--both), or if a tile is refused.
";

pub const OPTIONS: &[Choice] = &[
    Choice { long: "--output", short: Some("-o"), valued: true },
    Choice { long: "--zoom", short: Some("-z"), valued: true },
    Choice { long: "--at", short: None, valued: true },
    Choice { long: "--size", short: None, valued: true },
    Choice { long: "--window", short: None, valued: true },
    Choice { long: "--as", short: None, valued: true },
    Choice { long: "--decline", short: None, valued: true },
    Choice { long: "--rules", short: None, valued: true },
    Choice { long: "--both", short: None, valued: false },
    Choice { long: "--must-show", short: None, valued: true },
    Choice { long: "--language", short: None, valued: true },
];

pub fn run(args: &Args, out: &mut dyn Write) -> Outcome {
    let [collected, streamed] = readings(args)?;
    let path = match (args.has("--at"), args.has("--window")) {
        (true, true) => return Err(args.mistake("takes --at or --window, not both")),
        (false, false) => args.plain(["a MAP", "a TILE, --at LAT,LON or --window ENDS"])?[0],
        _ => args.plain(["a MAP"])?[0],
    };
    let source = Source::named(path);
    let file = source.open()?;
    let map = source.map(&file)?;
    let how = How {
        collected,
        streamed,
        declined: match args.value("--rules") {
            Some(name) => Declined::Rules(rules::passed(&map, name)?, name.into()),
            None => declined(args.tags("--decline")?),
        },
        required: args.tags("--must-show")?,
        language: args.value("--language").map(String::from),
    };
    let drawing = part(args, &map)?.draw(&how)?;
    let mut out = Unheard::new(out);
    result::write(args.value("--output"), &[source], drawing.svg().as_bytes(), &mut out)?;
    for complaint in &drawing.complaints {
        let _ = writeln!(io::stderr(), "mapsforge: {complaint}");
    }
    Ok(Status::well_if(drawing.complaints.is_empty()))
}

/// Whether it is drawn as a list reads it, and as a panel does.
fn readings(args: &Args) -> Result<[bool; 2], Failure> {
    let ruled = args.has("--rules");
    let [collected, streamed] = match (args.has("--both"), args.value("--as")) {
        (true, None) => [true, true],
        (false, None) => [!ruled, ruled],
        (false, Some("list")) => [true, false],
        (false, Some("panel")) => [false, true],
        (true, Some(_)) => return Err(args.mistake("takes --both or --as, not both")),
        (false, Some(other)) => {
            let text = format!("takes list or panel behind --as, not {other:?}");
            return Err(args.mistake(&text));
        }
    };
    if !streamed && ruled {
        return Err(args.mistake("takes --rules without --as list"));
    }
    if ruled && args.has("--decline") {
        return Err(args.mistake("takes --rules or --decline, not both"));
    }
    if !streamed && args.has("--decline") {
        return Err(args.mistake("takes --decline with --as panel or --both only"));
    }
    Ok([collected, streamed])
}

/// The tile, the square or the window that is asked for.
fn part<'m, 'a>(args: &Args, map: &'m Map<'a>) -> Result<Part<'m, 'a>, Failure> {
    let zoom: Option<u8> = args.number("--zoom", "a number from 0 to 255")?;
    let size: Option<f64> = args.number("--size", "a number of metres")?;
    let Some(at) = args.value("--at") else {
        if size.is_some() {
            return Err(args.mistake("takes --size with --at only"));
        }
        if let Some(ends) = args.value("--window") {
            let words: Vec<_> = ends.split(',').collect();
            let window = words.try_into().ok().and_then(window::parsed).ok_or_else(|| {
                args.mistake(&format!(
                    "takes LEFT,TOP,RIGHT,BOTTOM behind --window, whole numbers, not {ends:?}"
                ))
            })?;
            return Part::window(map, window, zoom);
        }
        let [_, tile] = args.plain(["a MAP", "a TILE"])?;
        let (sub_file, place) = target::find(map, tile)?;
        return Ok(Part::tile(sub_file, place, zoom));
    };
    let at = args::position(at)
        .ok_or_else(|| args.mistake(&format!("takes LAT,LON behind --at, not {at:?}")))?;
    let size = size.unwrap_or(1000.0);
    if !(size > 0.0 && size.is_finite()) {
        return Err(args.mistake("takes a size above 0"));
    }
    Part::around(map, at, size, zoom)
}
