//! Zoom tables of 1, 3 and 256 rows.

use super::writer::{sub_file, Point, Tile, Way};
use super::{all, at, header, Maps};

/// Base, lowest and highest zoom of each sub file; the last two are the ends of all zooms.
const ZOOMS: [[u8; 3]; 6] =
    [[0, 0, 0], [14, 14, 14], [9, 8, 10], [5, 0, 255], [0, 253, 255], [1, 255, 255]];

pub fn add(maps: &mut Maps) {
    good(maps);
    bad_rows(maps);
}

fn good(maps: &mut Maps) {
    let rows = ZOOMS.map(|[_, lowest, highest]| usize::from(highest - lowest) + 1);
    let sub_files = rows.map(|rows| sub_file(false, &[Vec::new(), tile(rows)]));
    let asked = (0..ZOOMS.len()).map(|k| at(k as u64, 1, 2));
    maps.add(header(&ZOOMS).before_all(&sub_files), asked);
}

/// Features in the first row, in the last and in those between, most rows being empty.
fn tile(rows: usize) -> Vec<u8> {
    let mut table = vec![[0, 0]; rows];
    let mut tile = Tile::default();
    for (k, row) in [0, rows / 2, rows - 1, rows / 3, rows - 1].into_iter().enumerate() {
        table[row][0] += 1;
        table[row][1] += 1 + k as u64 % 2;
        let number = k as i64;
        tile.points.push(Point::at([number, -number]));
        let way = Way { bitmap: k as u16, ..Way::of(vec![[number, 1], [1, number]]) };
        tile.ways.extend(vec![way; 1 + k % 2]);
    }
    Tile { rows: table, ..tile }.plain()
}

/// A bad tag id in one row of three: the rows before it are good.
fn bad_rows(maps: &mut Maps) {
    let mut tiles = Vec::new();
    for bad in 0..3 {
        let mut tile = Tile { rows: vec![[1, 1]; 3], ..Tile::default() };
        tile.points = (0..3).map(|k| Point::at([k, k])).collect();
        tile.ways = vec![Way::of(vec![[1, 2], [3, 4]]); 3];
        let mut in_point = tile.clone();
        in_point.points[bad].tags.push(99);
        tile.ways[bad].tags.push(99);
        tiles.extend([in_point.plain(), tile.plain()]);
    }
    let map = header(&[[9, 8, 10]]).before_all(&[sub_file(false, &tiles)]);
    maps.add(map, all(tiles.len()));
}
