//! One tile with something of everything.

use super::writer::{sub_file, Point, Tile, Way};
use super::{all, header, values, Maps, POI_TAGS, TEXTS, WAY_TAGS};
use crate::maps::writer::{Header, DEBUG};

/// A table of three rows.
const ZOOMS: [u8; 3] = [11, 10, 12];

pub fn add(maps: &mut Maps) {
    for debug in [false, true] {
        let tile = tile(debug).plain();
        let flags = if debug { DEBUG } else { 0 };
        let header = Header { flags, ..header(&[ZOOMS]) };
        maps.add(header.before_all(&[sub_file(debug, &[tile])]), all(1));
    }
}

/// Four points and seven ways in about 300 bytes without signatures.
pub fn tile(debug: bool) -> Tile {
    let rows = vec![[2, 2], [0, 1], [2, 4]];
    Tile { debug, rows, points: points(), ways: ways(), ..Tile::default() }
}

fn text(k: usize) -> Option<Vec<u8>> {
    Some(TEXTS[k].to_vec())
}

fn points() -> Vec<Point> {
    let tagged = |ids: &[u64]| Point {
        tags: ids.to_vec(),
        values: values(&POI_TAGS, ids),
        ..Point::at([-4_000, 65])
    };
    vec![
        Point { name: text(2), elevation: Some(-70), ..tagged(&[5, 0, 3]) },
        Point { layer: 0, ..Point::at([1 << 40, -1]) },
        Point { name: text(4), house_number: text(1), layer: 10, ..tagged(&[2, 10, 13]) },
        Point { flags: 0x1F, house_number: text(0), ..tagged(&[6, 7, 8, 4]) },
    ]
}

fn ways() -> Vec<Way> {
    let tagged = |bitmap: u16, ids: &[u64]| Way {
        bitmap,
        tags: ids.to_vec(),
        values: values(&WAY_TAGS, ids),
        ..Way::of(vec![[-8286, 70], [-57, 1], [129, -1], [-15, 2], [-129, 0]])
    };
    let polygon = vec![vec![vec![[0, 0], [0, 90], [90, 0]], vec![[10, 10], [1, 1]]], vec![]];
    vec![
        Way { double: true, name: text(3), label: Some([40, -41]), ..tagged(0xFFFF, &[5, 0]) },
        Way { data_blocks: Some(2), data: polygon, layer: 7, ..tagged(0x0660, &[1, 2]) },
        tagged(0x0001, &[]),
        Way { house_number: text(5), reference: text(1), ..tagged(0x8000, &[3, 4, 10]) },
        Way { flags: 3, name: text(0), double: true, ..tagged(0x00F1, &[8, 9]) },
        Way { reference: text(7), ..Way::of(vec![[300, -301]]) },
        Way { data_blocks: Some(3), data: vec![vec![]; 3], ..tagged(0x1234, &[7; 15]) },
    ]
}
