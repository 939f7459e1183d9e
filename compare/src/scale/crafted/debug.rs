//! Debug maps: signatures before tiles, points and ways.

use super::writer::{Point, Tile, Way};
use super::{all, debug_map, next_point, next_way, rich, Maps};

/// The size of a signature.
const SIGNATURE: usize = 32;

pub fn add(maps: &mut Maps) {
    whole(maps);
    skipped(maps);
    short(maps);
}

fn few() -> Tile {
    let ways = [next_way(), Way::of(vec![[0, 0]]), next_way(), next_way()];
    Tile { debug: true, ..Tile::of(&[next_point(), Point::at([0, 0])], &ways) }
}

/// Signatures of any bytes, and tiles with and without features.
fn whole(maps: &mut Maps) {
    let mut wild = few().plain();
    wild[..SIGNATURE].fill(0xFF);
    let place = SIGNATURE + 3; // behind the table of one row and the offset
    wild[place..place + SIGNATURE].fill(0x80);
    let nothing = Tile { debug: true, ..Tile::of(&[], &[]) };
    let no_points = Tile { debug: true, ..Tile::of(&[], &few().ways) };
    let no_ways = Tile { debug: true, ..Tile::of(&few().points, &[]) };
    let tiles = [few(), nothing, no_points, no_ways].map(|tile| tile.plain());
    let tiles = [&tiles[..], &[wild, vec![b'x'; SIGNATURE - 1]]].concat();
    maps.add(debug_map(&tiles), all(tiles.len()));
}

/// The offset leads to the first way's signature, and a stored size to the next one's.
fn skipped(maps: &mut Maps) {
    let first_way = few().plain().len() - SIGNATURE;
    let offset = |first_way| Tile { first_way: Some(first_way), ..few() };
    let size = |k: usize, size: u64| {
        let mut tile = few();
        tile.ways[k].size = Some(size);
        tile
    };
    let right = few().ways[0].right_size();
    let tiles = [
        offset(0),
        offset(SIGNATURE as u64),
        offset(first_way as u64),
        size(0, 0),
        size(0, right - 1),
        size(0, right + 1),
        size(0, right + SIGNATURE as u64),
        size(2, right + 1),
        size(3, 1 << 40),
    ];
    let tiles = tiles.map(|tile| tile.plain());
    maps.add(debug_map(&tiles), all(tiles.len()));
}

/// A tile of one row that is short, and the map ends with it.
fn short(maps: &mut Maps) {
    let rich = rich::tile(true);
    let tile = Tile { debug: true, ..Tile::of(&rich.points[..2], &rich.ways[..3]) }.plain();
    maps.add(debug_map(&[tile]), all(1));
}
