//! Points, with each field at its limits.

use super::writer::{Point, Value};
use super::{values, with_points, Maps, POI_TAGS, TEXTS};

pub fn add(maps: &mut Maps) {
    let points =
        [flags(), tag_counts(), letters(), bad_ids(), layers(), texts(), elevations()].concat();
    maps.add_tiles(&with_points(&points));
}

/// Every combination of the optional fields, without and with the reserved bits.
fn flags() -> Vec<Point> {
    let field = |chosen: usize, text: &[u8]| (chosen != 0).then(|| text.to_vec());
    let point = |k: usize| Point {
        flags: if k & 8 != 0 { 0x1F } else { 0 },
        name: field(k & 4, b"Kai"),
        house_number: field(k & 2, b"7b"),
        elevation: (k & 1 != 0).then_some(-12),
        ..Point::at([-1_000, 70_000])
    };
    (0..16).map(point).collect()
}

fn with_tags(ids: &[u64]) -> Point {
    let values = values(&POI_TAGS, ids);
    Point { tags: ids.to_vec(), values, name: Some(b"n".to_vec()), ..Point::at([1, 2]) }
}

/// 0 to 15 tags without a value.
fn tag_counts() -> Vec<Point> {
    (0..=15).map(|count| with_tags(&vec![9; count])).collect()
}

/// Each tag alone, several values at once, the same one twice, and texts of each length.
fn letters() -> Vec<Point> {
    let last = POI_TAGS.len() as u64 - 1;
    let mut points: Vec<Point> = (0..=last).map(|id| with_tags(&[id])).collect();
    let several: [&[u64]; 5] = [
        &[1, 2, 3, 4, 5],
        &[5, 0, 4, 6, 3, 7, 2, 8, 1],
        &[5, 5, 5],
        &[12, 10, 11, 10, 13],
        &[1, 2, 3, 4, 5, 1, 2, 3, 4, 5, 1, 2, 3, 4, 5],
    ];
    points.extend(several.map(with_tags));
    points.extend(
        [0, 1, 127, 128, 300].map(|length| Point {
            values: vec![Value::Text(vec![0x80; length])],
            ..with_tags(&[5])
        }),
    );
    points
}

/// Ids past the last tag, also behind good ones; each is refused before any value is skipped.
fn bad_ids() -> Vec<Point> {
    let past = POI_TAGS.len() as u64;
    let ids = [vec![past], vec![past - 1, past], vec![5, 1, past, past + 1], vec![127], vec![128]];
    let far = [1 << 32, (1 << 32) + 1, 1 << 62, (1 << 63) - 1].map(|id| vec![id]);
    ids.into_iter().chain(far).map(|ids| with_tags(&ids)).collect()
}

fn layers() -> Vec<Point> {
    (0..16).map(|layer| Point { layer, ..Point::at([0, 0]) }).collect()
}

fn texts() -> Vec<Point> {
    let name = |text: &&[u8]| Point { name: Some(text.to_vec()), ..Point::at([0, 1]) };
    let both = |text: &&[u8]| Point { house_number: Some(text.to_vec()), ..name(&&b"a\xFF"[..]) };
    TEXTS.iter().map(name).chain(TEXTS.iter().map(both)).collect()
}

/// "Elevation keeps the low 32 bits, two's complement."
fn elevations() -> Vec<Point> {
    let (half, whole, large) = (1_i64 << 31, 1_i64 << 32, (1_i64 << 62) - 1);
    let limits = [0, 1, 8848, half - 1, half, half + 1, whole - 1, whole, whole + 1, large];
    let near = limits.into_iter().flat_map(|metres| [metres, -metres]);
    let far = [(1 << 53) + 1, 0x0123_4567_89AB_CDEF, -0x0123_4567_89AB_CDEF];
    let point = |metres| Point { elevation: Some(metres), ..Point::at([1, 0]) };
    near.chain(far).map(point).collect()
}
