//! Features as GeoJSON (RFC 7946).

use crate::draw::style;
use crate::json::Value;
use mapsforge::{Kind, Line, Name, Placed, Position};

/// A ring: its positions, the last one the first again.
type Ring = Vec<Position>;

/// A feature: its identifier, geometry and properties.
pub fn feature(id: String, tile: String, feature: &Placed<'_>) -> Value {
    Value::object([
        ("type", Value::text("Feature")),
        ("id", Value::text(id)),
        ("geometry", geometry(feature)),
        ("properties", properties(tile, feature)),
    ])
}

/// The texts and tags by their keys in OpenStreetMap. A value that the feature stores itself is not given: it is null.
fn properties(tile: String, feature: &Placed<'_>) -> Value {
    let mut fields: Vec<(String, Value)> = Vec::new();
    let mut add = |key: &str, value: Value| {
        if !fields.iter().any(|(name, _)| name == key) {
            fields.push((key.into(), value));
        }
    };
    if let Some(name) = feature.name.map(Name::new) {
        add("name", Value::text(name.first()));
        for (language, other) in name.others() {
            if let Some(language) = language {
                add(&format!("name:{language}"), Value::text(other));
            }
        }
    }
    let texts = [("addr:housenumber", feature.house_number), ("ref", feature.reference)];
    for (key, text) in texts {
        if let Some(text) = text {
            add(key, Value::text(text));
        }
    }
    for tag in &feature.tags {
        let text = tag.text.to_text();
        let (key, value) = text.split_once('=').unwrap_or((&text, ""));
        add(key, if tag.kind.is_some() { Value::Null } else { Value::text(value) });
    }
    if feature.layer != 0 {
        add("layer", Value::Signed(feature.layer.into()));
    }
    if let Some(metres) = feature.elevation {
        add("ele", Value::Signed(metres.into()));
    }
    add("mapsforge:tile", Value::Text(tile));
    Value::Object(fields)
}

fn geometry(feature: &Placed<'_>) -> Value {
    let lines: Vec<&Line> = feature.lines.iter().filter(|line| !line.nodes.is_empty()).collect();
    let typed = |kind: &str, coordinates: Value| {
        Value::object([("type", Value::text(kind)), ("coordinates", coordinates)])
    };
    match &lines[..] {
        [] => Value::Null,
        [line] if feature.kind == Kind::Point || line.nodes.len() == 1 => {
            typed("Point", position(line.nodes[0]))
        }
        lines if is_area(feature, lines) => match &polygons(lines)[..] {
            [polygon] => typed("Polygon", rings(polygon)),
            polygons => {
                typed("MultiPolygon", Value::List(polygons.iter().map(|one| rings(one)).collect()))
            }
        },
        [line] => typed("LineString", positions(&line.nodes)),
        lines => {
            let long = lines.iter().filter(|line| line.nodes.len() > 1);
            typed("MultiLineString", Value::List(long.map(|line| positions(&line.nodes)).collect()))
        }
    }
}

/// Whether a way is an area: all its lines are rings, and it is drawn as one.
fn is_area(feature: &Placed<'_>, lines: &[&Line]) -> bool {
    lines.iter().all(|line| line.closed && line.nodes.len() > 3)
        && style::of_way(&style::tags(feature), true).fill.is_some()
}

fn position(at: Position) -> Value {
    Value::List(vec![Value::Decimal(at.longitude, 6), Value::Decimal(at.latitude, 6)])
}

fn positions(nodes: &[Position]) -> Value {
    Value::List(nodes.iter().map(|&at| position(at)).collect())
}

fn rings(rings: &[Ring]) -> Value {
    Value::List(rings.iter().map(|ring| positions(ring)).collect())
}

/// Twice a ring's area, above 0 if it goes against the clock.
fn area(ring: &[Position]) -> f64 {
    let cross = |pair: &[Position]| {
        pair[0].longitude * pair[1].latitude - pair[1].longitude * pair[0].latitude
    };
    ring.windows(2).map(cross).sum()
}

/// Whether a place is inside a ring.
pub fn inside(ring: &[Position], at: Position) -> bool {
    let crossed = ring.windows(2).filter(|pair| {
        let (from, to) = (pair[0], pair[1]);
        if (from.latitude > at.latitude) == (to.latitude > at.latitude) {
            return false;
        }
        let part = (at.latitude - from.latitude) / (to.latitude - from.latitude);
        at.longitude < from.longitude + part * (to.longitude - from.longitude)
    });
    crossed.count() % 2 == 1
}

/// The rings of a way as polygons: one that lies in no other, or in a hole, is an outline; one in an outline is its hole.
/// The map does not say which is which.
fn polygons(lines: &[&Line]) -> Vec<Vec<Ring>> {
    let all: Vec<Ring> = lines.iter().map(|line| closed(&line.nodes)).collect();
    let around: Vec<Vec<usize>> = all
        .iter()
        .enumerate()
        .map(|(k, ring)| {
            (0..all.len()).filter(|&other| other != k && inside(&all[other], ring[0])).collect()
        })
        .collect();
    let mut found: Vec<(usize, Vec<Ring>)> = Vec::new();
    for (k, ring) in all.iter().enumerate() {
        if around[k].len().is_multiple_of(2) {
            found.push((k, vec![turned(ring, true)]));
        }
    }
    for (k, ring) in all.iter().enumerate() {
        if !around[k].len().is_multiple_of(2) {
            // Its outline is the innermost one around it.
            let depth = |outline: usize| around[outline].len();
            let outlines = found.iter_mut().filter(|(outline, _)| around[k].contains(outline));
            if let Some((_, rings)) = outlines.max_by_key(|(outline, _)| depth(*outline)) {
                rings.push(turned(ring, false));
            }
        }
    }
    found.into_iter().map(|(_, rings)| rings).collect()
}

/// A ring whose last position is just the first.
fn closed(nodes: &[Position]) -> Ring {
    let mut ring = nodes.to_vec();
    if let (Some(&first), Some(last)) = (nodes.first(), ring.last_mut()) {
        *last = first;
    }
    ring
}

/// A ring that goes against the clock, or with it.
fn turned(ring: &[Position], against: bool) -> Ring {
    let mut ring = ring.to_vec();
    if (area(&ring) > 0.0) != against {
        ring.reverse();
    }
    ring
}

#[cfg(test)]
mod tests {
    use super::*;

    fn square(left: f64, side: f64) -> Line {
        let at = |right: f64, up: f64| Position {
            latitude: left + up * side,
            longitude: left + right * side,
        };
        let nodes = vec![at(0.0, 0.0), at(0.0, 1.0), at(1.0, 1.0), at(1.0, 0.0), at(0.0, 0.0)];
        Line { nodes, closed: true }
    }

    #[test]
    fn rings_become_polygons() {
        // An outline with a hole, an island in it, and a square apart.
        let lines = [square(0.0, 10.0), square(2.0, 6.0), square(4.0, 2.0), square(20.0, 1.0)];
        let found = polygons(&lines.iter().collect::<Vec<_>>());
        let sizes: Vec<_> = found.iter().map(Vec::len).collect();
        assert_eq!(sizes, [2, 1, 1]);
        assert!(area(&found[0][0]) > 0.0 && area(&found[0][1]) < 0.0);
        assert_eq!(found[0][1].len(), 5);
        assert_eq!(found[0][1].first(), found[0][1].last());
    }
}
