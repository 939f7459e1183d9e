//! First-way offsets and stored sizes that lead elsewhere.

use super::writer::{Point, Tile, Way};
use super::{all, map, next_point, next_way, Maps};

/// Far past the end of any map.
const FAR: [u64; 4] = [1 << 20, 1 << 32, 1 << 62, (1 << 63) - 1];

pub fn add(maps: &mut Maps) {
    overlap(maps);
    offsets(maps);
    far_offsets(maps);
    sizes(maps);
    far_sizes(maps);
    empty(maps);
}

/// The way lies over the point, and its last byte is the point's name.
fn overlap(maps: &mut Maps) {
    let tile = [0x01, 0x01, 0x00, 0x05, 0x00, 0x50, 0x80, 0x01, 0x00];
    maps.add_alone(tile.to_vec());
}

fn few() -> Tile {
    let ways = [next_way(), Way::of(vec![[0, 0]]), next_way(), Way::of(vec![[1, -1], [0, 1]])];
    Tile::of(&[next_point(), Point::at([0, 0])], &ways)
}

/// Every offset from the points' start to behind the last way.
fn offsets(maps: &mut Maps) {
    let length = few().plain().len() as u64;
    let tile = |offset| Tile { first_way: Some(offset), ..few() }.plain();
    let tiles: Vec<Vec<u8>> = (0..length + 2).map(tile).collect();
    maps.add_tiles(&tiles);
}

/// Offsets around the map's end; without ways they lead nowhere wrong.
fn far_offsets(maps: &mut Maps) {
    let behind = few().plain().len() as u64 - 3; // a row and the offset are three bytes
    for offset in (behind - 1..=behind + 1).chain(FAR) {
        let tile = Tile { first_way: Some(offset), ..few() };
        maps.add_alone(tile.plain());
        let no_ways = Tile { first_way: Some(offset), ..Tile::of(&tile.points, &[]) };
        maps.add_alone(no_ways.plain());
        let no_points = Tile { first_way: Some(offset), ..Tile::of(&[], &tile.ways) };
        maps.add_alone(no_points.plain());
    }
}

/// Every stored size up to past the next way, of the first way and of the third.
fn sizes(maps: &mut Maps) {
    let mut tiles = Vec::new();
    for k in [0, 2] {
        for size in 0..few().ways[k].right_size() + 10 {
            tiles.push(with_size(k, size).plain());
        }
    }
    maps.add_tiles(&tiles);
}

fn with_size(k: usize, size: u64) -> Tile {
    let mut tile = few();
    tile.ways[k].size = Some(size);
    tile
}

/// Sizes around the map's end and far past it; behind the last way nothing is read.
fn far_sizes(maps: &mut Maps) {
    let last = few().ways.len() - 1;
    for k in [0, 2, last] {
        let around_end = few().ways[k..].iter().map(|way| way.right_size() + 1).sum::<u64>() - 1;
        for size in (around_end - 1..=around_end + 1).chain(FAR) {
            maps.add_alone(with_size(k, size).plain());
        }
    }
}

/// Tiles without features, one whose way has no byte behind its tags, and one that is not there.
fn empty(maps: &mut Maps) {
    maps.add_alone(Tile::of(&[], &[]).plain());
    maps.add_alone(vec![0, 1, 0, 3, 0xFF, 0xFF, 0x50]);
    maps.add(map(&[]), all(1));
}
