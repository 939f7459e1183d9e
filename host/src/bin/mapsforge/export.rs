//! `mapsforge export`

use crate::args::{Args, Choice};
use crate::geojson;
use crate::input::Source;
use crate::output::short;
use crate::query::{Query, BBOX, TAG, ZOOM};
use crate::result::{create, unwritten};
use crate::{refused, Failure, Outcome};
use mapsforge::Map;
use std::io::{BufWriter, Write};

pub const HELP: &str = "\
mapsforge export MAP --geojson [--tag TAGS] [--bbox SOUTH,WEST,NORTH,EAST] [--zoom ZOOM] [-o FILE]

Writes the features of a map for other programs, as GeoJSON (RFC 7946): a feature in a line, as
it is read. Tags are properties by their keys; a value that the feature stores itself (in a tag
like maxspeed=%b) is null. A way is stored in each tile that it touches, and exported for each.

    --geojson            the format; there is no other yet
    --tag TAGS           only those with one of these tags, KEY[=VALUE],...; name=NAME is one too
    --bbox BOX           only those that touch this box, in degrees
    --zoom ZOOM          those shown at this zoom, by default the highest of the map
    -o, --output FILE    to this file instead of standard output

The status is 1 if a tile is refused: its features are then missing.
";

pub const OPTIONS: &[Choice] = &[
    Choice { long: "--geojson", short: None, valued: false },
    TAG,
    BBOX,
    ZOOM,
    Choice { long: "--output", short: Some("-o"), valued: true },
];

pub fn run(args: &Args, out: &mut dyn Write) -> Outcome {
    let [path] = args.plain(["a MAP"])?;
    if !args.has("--geojson") {
        return Err(args.mistake("needs --geojson"));
    }
    let query = Query::new(args)?;
    let source = Source::named(path);
    let file = source.open()?;
    let map = source.map(&file)?;
    let missing = match args.value("--output") {
        None | Some("-") => collection(&map, &query, out)?,
        Some(to) => {
            let mut file = BufWriter::new(create(to, &[source])?);
            let written = collection(&map, &query, &mut file).and_then(|missing| {
                file.flush()?;
                Ok(missing)
            });
            written.map_err(|failure| match failure {
                Failure::Write(error) => unwritten(to, &error),
                other => other,
            })?
        }
    };
    refused(out, &missing)
}

/// Writes all features, one in a line.
fn collection(map: &Map<'_>, query: &Query, out: &mut dyn Write) -> Result<Vec<Failure>, Failure> {
    write!(out, "{{\"type\":\"FeatureCollection\",\"features\":[")?;
    let mut between = "\n";
    let missing = query.each(map, |sub_file, place, feature| {
        let (number, kind) = (feature.number, feature.kind.word());
        let id = format!("{}:{}:{kind}:{number}", sub_file.number(), place.number);
        let value = geojson::feature(id, short(sub_file, place), &feature);
        write!(out, "{between}{value}")?;
        between = ",\n";
        Ok(())
    })?;
    writeln!(out, "\n]}}")?;
    Ok(missing)
}
