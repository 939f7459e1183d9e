//! Maps of crafted tiles, the boundaries first and then random ones.

mod bodies;
mod counts;
mod debug;
mod layout;
mod marked;
mod numbers;
mod order;
mod padded;
mod points;
mod random;
mod rich;
mod tags;
mod ways;
pub mod writer;
mod zooms;

use mapsforge_rs::grid::Grid;

use crate::maps::writer::{tags as tag_list, Header, DEBUG};
use crate::tiles::Address;
use writer::{sub_file, Point, Tile, Value, Way};

/// Maps, each with the tiles that are asked for.
#[derive(Default)]
struct Maps(Vec<(Vec<u8>, Vec<Address>)>);

impl Maps {
    fn add(&mut self, map: Vec<u8>, tiles: impl IntoIterator<Item = Address>) {
        self.0.push((map, tiles.into_iter().collect()));
    }

    /// A map of one sub file of one row, with these tiles.
    fn add_tiles(&mut self, tiles: &[Vec<u8>]) {
        self.add(map(tiles), all(tiles.len()));
    }

    /// A tile in a map of its own, which ends with it.
    fn add_alone(&mut self, tile: Vec<u8>) {
        self.add_tiles(&[tile]);
    }
}

/// All maps, each with the tiles that are asked for. A map may come twice.
pub fn maps() -> Vec<(Vec<u8>, Vec<Address>)> {
    let mut maps = Maps::default();
    points::add(&mut maps);
    ways::add(&mut maps);
    bodies::add(&mut maps);
    tags::add(&mut maps);
    layout::add(&mut maps);
    zooms::add(&mut maps);
    numbers::add(&mut maps);
    counts::add(&mut maps);
    order::add(&mut maps);
    debug::add(&mut maps);
    marked::add(&mut maps);
    rich::add(&mut maps);
    random::add(&mut maps);
    padded::add(&mut maps);
    maps.0
}

/// The tags of the points: each letter of a value, and all ways to have none.
const POI_TAGS: [&[u8]; 14] = [
    b"amenity=ferry",
    b"a=%b",
    b"b=%h",
    b"c=%i",
    b"d=%f",
    b"e=%s",
    b"f=%x",
    b"g=%",
    b"h=%B",
    b"harbour",
    b"i=%b=%s",
    b"\xFF=%h",
    b"",
    b"last=1",
];

/// Those of the ways, in another order and number, so that no table is taken for the other.
const WAY_TAGS: [&[u8]; 11] = [
    b"a=%s",
    b"b=%f",
    b"c=%i",
    b"d=%h",
    b"e=%b",
    b"highway=pier",
    b"g=%box",
    b"%b",
    b"=%b",
    b"\xE2\x82=%i",
    b"last",
];

/// The inline values of some tags, with bytes that would lead astray who does not skip them.
fn values(table: &[&[u8]], ids: &[u64]) -> Vec<Value> {
    ids.iter().filter_map(|&id| value(table.get(id as usize)?)).collect()
}

fn value(tag: &[u8]) -> Option<Value> {
    let at = tag.windows(2).position(|pair| pair == b"=%")?;
    match tag.get(at + 2)? {
        b'b' => Some(Value::Fixed(vec![0xFF])),
        b'h' => Some(Value::Fixed(vec![0x81, 0x80])),
        b'i' => Some(Value::Fixed(vec![0, 1, 0xFE, 0xFF])),
        b'f' => Some(Value::Fixed(vec![0x80, 0x80, 0x80, 0x80])),
        b's' => Some(Value::Text(b"\x03\xFFab".to_vec())),
        _ => None,
    }
}

/// A header with these tags, and an interval for each base, lowest and highest zoom.
pub fn header(zooms: &[[u8; 3]]) -> Header {
    let header =
        Header { poi_tags: tag_list(&POI_TAGS), way_tags: tag_list(&WAY_TAGS), ..Header::tiny() };
    zooms.iter().fold(header, |header, &zooms| header.with_interval(zooms, 0))
}

/// A map of one sub file of one row, with its tiles.
fn map(tiles: &[Vec<u8>]) -> Vec<u8> {
    header(&[[0; 3]]).before_all(&[sub_file(false, tiles)])
}

fn debug_map(tiles: &[Vec<u8>]) -> Vec<u8> {
    let header = Header { flags: DEBUG, ..header(&[[0; 3]]) };
    header.before_all(&[sub_file(true, tiles)])
}

/// A tile of a sub file whose tiles are in one row of the grid.
pub fn at(sub_file: u64, tile: usize, tiles: usize) -> Address {
    let grid = Grid { x_min: 0, y_min: 0, x_max: tiles as i32 - 1, y_max: 0 };
    Address { sub_file, grid, tile: tile as u64 }
}

/// All tiles of sub file 0, which are in one row of the grid.
fn all(tiles: usize) -> impl Iterator<Item = Address> {
    (0..tiles).map(move |tile| at(0, tile, tiles))
}

/// A point behind the one in question, so that it shows where that ends.
pub fn next_point() -> Point {
    Point { name: Some(b"next".to_vec()), ..Point::at([3, -4]) }
}

/// The same for a way.
pub fn next_way() -> Way {
    Way { bitmap: 0x8421, tags: vec![5], ..Way::of(vec![[7, -8], [1, 2]]) }
}

/// Tiles that start with the point in question.
fn with_points(points: &[Point]) -> Vec<Vec<u8>> {
    let tile = |point: &Point| Tile::of(&[point.clone(), next_point()], &[next_way()]).plain();
    points.iter().map(tile).collect()
}

/// Tiles whose ways start with the one in question.
fn with_ways(ways: &[Way]) -> Vec<Vec<u8>> {
    let tile = |way: &Way| Tile::of(&[next_point()], &[way.clone(), next_way()]).plain();
    ways.iter().map(tile).collect()
}

/// Texts of each kind: empty, valid, of characters of each length, ill-formed.
const TEXTS: [&[u8]; 8] = [
    b"",
    b"a",
    b"Ytter\xC3\xB8y ferry",
    b"\xE6\xB8\xAF \xF0\x9F\x9A\xA2",
    b"a\xFFb",
    b"\xE2\x82",
    b"\xED\xA0\x80\xC0\x80",
    b"\0=\r%s\x08",
];
