//! Tags by ids of two bytes, and maps with no tags at all.

use super::writer::{sub_file, Point, Tile, Value, Way};
use super::{all, next_point, next_way, Maps};
use crate::maps::writer::{tags, Header};

/// The numbers of tags of points and of ways.
const POIS: u64 = 300;
const WAYS: u64 = 130;

pub fn add(maps: &mut Maps) {
    many(maps);
    none(maps);
}

fn with_tags(poi_tags: Vec<u8>, way_tags: Vec<u8>, tiles: &[Vec<u8>]) -> Vec<u8> {
    let header = Header { poi_tags, way_tags, ..Header::tiny() }.with_interval([0; 3], 0);
    header.before_all(&[sub_file(false, tiles)])
}

/// Every fourth tag has a value of one byte.
fn many(maps: &mut Maps) {
    let texts: Vec<String> =
        (0..POIS).map(|k| if k % 4 == 0 { format!("{k}=%b") } else { k.to_string() }).collect();
    let texts: Vec<&[u8]> = texts.iter().map(|text| text.as_bytes()).collect();
    let ids = [0, 1, 127, 128, 129, 130, 131, 255, 256, 298, 299, 300, 1 << 14];
    let tiles: Vec<Vec<u8>> = ids.iter().map(|&id| on_both(id).plain()).collect();
    let map = with_tags(tags(&texts), tags(&texts[..WAYS as usize]), &tiles);
    maps.add(map, all(tiles.len()));
}

/// A point with a tag, and a way with the same one if it has that.
fn on_both(id: u64) -> Tile {
    let value = |id: u64| match id % 4 {
        0 => vec![Value::Fixed(vec![0xFF])],
        _ => Vec::new(),
    };
    let point = Point { tags: vec![id], values: value(id), ..Point::at([0, 0]) };
    let id = if id < POIS { id.min(WAYS) } else { id };
    let way = Way { tags: vec![id], values: value(id), ..Way::of(vec![[1, 1]]) };
    Tile::of(&[point], &[way, next_way()])
}

fn none(maps: &mut Maps) {
    let id_0 = Way { tags: vec![0], ..Way::of(vec![[1, 1]]) };
    let tiles = [
        Tile::of(&[next_point()], &[Way { tags: Vec::new(), ..next_way() }]).plain(),
        Tile::of(&[next_point()], &[id_0]).plain(),
        Tile::of(&[Point { tags: vec![0], ..next_point() }], &[]).plain(),
    ];
    maps.add(with_tags(tags(&[]), tags(&[]), &tiles), all(tiles.len()));
}
