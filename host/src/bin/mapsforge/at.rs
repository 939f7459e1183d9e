//! `mapsforge at`

use crate::args::{self, Args, Choice};
use crate::diff::metres;
use crate::draw::style;
use crate::geojson::inside;
use crate::input::Source;
use crate::output::{feature as told, position, tile as named};
use crate::query::{Query, TAG, ZOOM};
use crate::{refused, target, Outcome};
use mapsforge::{BoundingBox, Grid, Kind, Placed, Position, TilePlace, EARTH_RADIUS};
use std::io::Write;

pub const HELP: &str = "\
mapsforge at MAP LAT,LON [--zoom ZOOM] [--within METRES] [--tag TAGS]

Says what is at a place: its tile, and the features around it with their distances, the nearest
first. An area that the place lies in is 0.0 m away. LAT,LON is in degrees.

    --zoom ZOOM        those shown at this zoom, by default the highest of the map
    --within METRES    not further away than this, by default 100
    --tag TAGS         only those with one of these tags, KEY[=VALUE],...

The status is 1 if a tile is refused: its features are then missing.
";

pub const OPTIONS: &[Choice] = &[TAG, ZOOM, Choice { long: "--within", short: None, valued: true }];

pub fn run(args: &Args, out: &mut dyn Write) -> Outcome {
    let [path, place] = args.plain(["a MAP", "LAT,LON"])?;
    let at = args::position(place)
        .ok_or_else(|| args.mistake(&format!("takes LAT,LON in degrees, not {place:?}")))?;
    let within: f64 = args.number("--within", "a number of metres")?.unwrap_or(100.0);
    if !(within >= 0.0 && within.is_finite()) {
        return Err(args.mistake("takes a number of metres from 0 on behind --within"));
    }
    let source = Source::named(path);
    let file = source.open()?;
    let map = source.map(&file)?;
    let query = Query { bounds: Some(around(at, within)), ..Query::new(args)? };
    let (sub_file, zoom) = target::zoomed_sub_file(&map, query.zoom)?;
    let here = BoundingBox {
        south: at.latitude,
        west: at.longitude,
        north: at.latitude,
        east: at.longitude,
    };
    let grid = Grid::of_box(&here, sub_file.interval().base_zoom)?;
    match sub_file.tile_at(grid.x_min, grid.y_min)? {
        Some(tile) => {
            writeln!(out, "{} at zoom {zoom}: {}", position(at), named(&sub_file, tile))?;
        }
        None => writeln!(out, "{} at zoom {zoom}: no tile of the map", position(at))?,
    }
    let mut found: Vec<Found> = Vec::new();
    let missing = query.each(&map, |_, tile, feature| {
        let one = Found {
            metres: distance(&feature, at),
            kind: feature.kind,
            number: feature.number,
            text: told(&feature),
            tile,
            first: feature.position(),
        };
        if one.metres <= within && !found.iter().any(|other| other.is(&one)) {
            found.push(one);
        }
        Ok(())
    })?;
    found.sort_by(|one, other| one.metres.total_cmp(&other.metres));
    for Found { metres: away, kind, number, text, .. } in found {
        writeln!(out, "{:>8}  {} {number}  {text}", metres(away), kind.word())?;
    }
    refused(out, &missing)
}

/// A feature that is near enough.
struct Found {
    metres: f64,
    kind: Kind,
    number: u64,
    text: String,
    tile: TilePlace,
    first: Option<Position>,
}

impl Found {
    /// Whether two are one way, which is stored in several tiles. It is told once.
    fn is(&self, other: &Found) -> bool {
        let near = |one: Position, other: Position| one.metres_to(other) < 0.5;
        self.kind == Kind::Way
            && other.kind == Kind::Way
            && self.tile != other.tile
            && (self.metres - other.metres).abs() < 0.5
            && self.text == other.text
            && self.first.zip(other.first).is_some_and(|(one, other)| near(one, other))
    }
}

/// How many metres a degree of latitude has.
fn degree() -> f64 {
    EARTH_RADIUS.to_radians()
}

/// The box that is so many metres wide in each direction.
fn around(at: Position, metres: f64) -> BoundingBox {
    let up = metres / degree();
    let across = (up / at.latitude.to_radians().cos().max(0.001)).min(360.0);
    BoundingBox {
        south: at.latitude - up,
        west: at.longitude - across,
        north: at.latitude + up,
        east: at.longitude + across,
    }
}

/// How far a feature is from a place: 0 inside of an area. Close by the earth is flat.
fn distance(feature: &Placed<'_>, at: Position) -> f64 {
    let closed = feature.lines.first().is_some_and(|line| line.closed);
    let area = closed && style::of_way(&style::tags(feature), true).fill.is_some();
    let rings = feature.lines.iter().filter(|line| inside(&line.nodes, at)).count();
    if area && rings % 2 == 1 {
        return 0.0;
    }
    let wide = at.latitude.to_radians().cos();
    let flat = |node: &Position| {
        (
            (node.longitude - at.longitude) * wide * degree(),
            (node.latitude - at.latitude) * degree(),
        )
    };
    let lines = feature.lines.iter().map(|line| {
        let nodes: Vec<_> = line.nodes.iter().map(flat).collect();
        let alone = nodes.first().map_or(f64::INFINITY, |node| node.0.hypot(node.1));
        nodes.windows(2).map(|step| to_step(step[0], step[1])).fold(alone, f64::min)
    });
    lines.fold(f64::INFINITY, f64::min)
}

/// The distance from 0, 0 to a step from one place to another.
fn to_step(from: (f64, f64), to: (f64, f64)) -> f64 {
    let (right, up) = (to.0 - from.0, to.1 - from.1);
    let length = right * right + up * up;
    let part = if length > 0.0 { -(from.0 * right + from.1 * up) / length } else { 0.0 };
    let part = part.clamp(0.0, 1.0);
    (from.0 + right * part).hypot(from.1 + up * part)
}

#[cfg(test)]
mod tests {
    use super::to_step;

    #[test]
    fn distances() {
        assert_eq!(to_step((3.0, -4.0), (3.0, 4.0)), 3.0);
        assert_eq!(to_step((3.0, 4.0), (6.0, 8.0)), 5.0);
        assert_eq!(to_step((3.0, 4.0), (3.0, 4.0)), 5.0);
    }
}
