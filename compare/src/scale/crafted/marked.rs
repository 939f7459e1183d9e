//! Tiles that the index marks empty (Wish 5), and next entries that are cut off. The maps are small, so that all their
//! cuts can be tried.

use super::writer::{sub_file, with_water, Point, Tile, Way};
use super::{all, at, Maps};
use crate::maps::writer::{entry, Header, Interval, DEBUG, INDEX_SIGNATURE};

/// Base, lowest and highest zoom of a sub file of 3 rows, and of one that is reversed.
const ZOOMS: [[u8; 3]; 2] = [[9, 8, 10], [9, 9, 8]];

pub fn add(maps: &mut Maps) {
    for debug in [false, true] {
        places(maps, debug);
        rows(maps, debug);
        sizes(maps, debug);
        next_entries(maps, debug);
    }
    near(maps);
}

/// A tile of a point and a way.
fn tile(debug: bool, rows: usize) -> Vec<u8> {
    let mut table = vec![[0, 0]; rows];
    table[rows / 2] = [1, 1];
    let tile = Tile { debug, ..Tile::of(&[Point::at([3, -4])], &[Way::of(vec![[7, -8]])]) };
    Tile { rows: table, ..tile }.plain()
}

/// A header without tags, with these intervals.
fn header(debug: bool, zooms: &[[u8; 3]]) -> Header {
    let header = Header { flags: if debug { DEBUG } else { 0 }, ..Header::tiny() };
    zooms.iter().fold(header, |header, &zooms| header.with_interval(zooms, 0))
}

/// Marked tiles first, last and between others, alone and several beside each other, or all of them; and with each
/// water mark before each.
fn places(maps: &mut Maps, debug: bool) {
    const MOST: &[bool] = &[true, false, true, true, false, true];
    const PLACES: [&[bool]; 5] =
        [MOST, &[false, true, false], &[false, false, true], &[true, false, false], &[true, true]];
    const WATER: [fn(usize) -> bool; 3] = [|_| false, |_| true, |k| k % 4 < 2];
    PLACES.iter().for_each(|empty| add_places(maps, debug, empty, |k| k % 2 == 1));
    WATER.iter().for_each(|water| add_places(maps, debug, MOST, water));
}

fn add_places(maps: &mut Maps, debug: bool, empty: &[bool], water: impl Fn(usize) -> bool) {
    let tile = |&empty: &bool| if empty { Vec::new() } else { tile(debug, 3) };
    let tiles: Vec<Vec<u8>> = empty.iter().map(tile).collect();
    let bytes = with_water(debug, &tiles, water);
    let asked = (0..2).flat_map(|k| (0..tiles.len()).map(move |tile| (k, tile)));
    let asked = asked.map(|(k, tile)| at(k, tile, tiles.len()));
    maps.add(header(debug, &ZOOMS).before_all(&[bytes.clone(), bytes]), asked);
}

/// As many rows as there can be, and one.
fn rows(maps: &mut Maps, debug: bool) {
    for (zooms, rows) in [([5, 0, 255], 256), ([0; 3], 1)] {
        let tiles = [Vec::new(), tile(debug, rows), Vec::new()];
        maps.add(header(debug, &[zooms]).before_all(&[sub_file(debug, &tiles)]), all(3));
    }
}

/// A sub file of one tile, or of two, whose stored size is the last one's offset or beside it, though bytes are there.
/// A size of more than 39 bits is no offset, even if a sum of it and the sub file's start would be a place of the tile;
/// and only the last tile's offset is compared with the size.
fn sizes(maps: &mut Maps, debug: bool) {
    for tiles in [1, 2] {
        let length = tile(debug, 1).len() as u64;
        let bytes = sub_file(debug, &vec![tile(debug, 1); tiles]);
        let last = bytes.len() as u64 - length;
        let first = last - (tiles as u64 - 1) * length;
        let sizes = |start: u64| {
            let near = [last - 1, last, last + 1, first, 0];
            let high = [1 << 39, 1 << 40, 1 << 63].map(|high| last | high);
            let sums = [start + last, last.wrapping_sub(start), u64::MAX - start, u64::MAX];
            near.into_iter().chain(high).chain(sums).collect::<Vec<_>>()
        };
        let header = |start| {
            let of_size = |size| Interval { zooms: [0; 3], start, size };
            let intervals = sizes(start).into_iter().map(of_size).collect();
            Header { intervals, ..header(debug, &[]) }
        };
        let start = header(0).length();
        let sub_files = sizes(start).len() as u64;
        let asked = (0..sub_files).flat_map(|k| (0..tiles).map(move |tile| at(k, tile, tiles)));
        maps.add(header(start).before(&bytes), asked);
    }
}

/// The tile's entry is there, of the next one so many bytes: 19 with the place behind the tile's own, before 13. As the
/// last tile it is read without them.
fn next_entries(maps: &mut Maps, debug: bool) {
    let signature = if debug { &INDEX_SIGNATURE[..] } else { &[] };
    for zooms in [[0; 3], [9, 9, 8]] {
        for bytes in 0..=5 {
            let index = [signature, &entry(true, 0), &entry(false, 0)[..bytes]].concat();
            let map = header(debug, &[zooms]).before_all(&[index]);
            maps.add(map, [at(0, 0, 2), at(0, 1, 2), at(0, 0, 1)]);
        }
    }
}

/// Offsets that differ in one bit of 39 are others. The water mark, which is the bit above them, says nothing.
fn near(maps: &mut Maps) {
    let tiles = 2 * 39 + 1;
    let behind = tiles as u64 * 5;
    let offset = |k: usize| if k % 2 == 1 { behind ^ 1 << (k / 2) } else { behind };
    let entries = (0..tiles).flat_map(|k| entry(k % 3 == 0, offset(k)));
    let index: Vec<u8> = entries.collect();
    let map = header(false, &[[0; 3]]).before_all(&[[index, tile(false, 1)].concat()]);
    maps.add(map, all(tiles));
}
