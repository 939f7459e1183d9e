//! Numbers in more bytes than they need, numbers that are too long, and coordinates and lengths past
//! their limits, in every place that has one.

use super::writer::{Numbers, Point, Tile, Way};
use super::{values, Maps, POI_TAGS, WAY_TAGS};
use crate::leaves::sample::{unsigned, unsigned_in};

/// A number's most bytes.
const MOST: usize = 9;
/// The largest coordinate.
const LARGEST: i64 = 1 << 53;
/// The longest text.
const LONGEST: u64 = 1 << 20;

pub fn add(maps: &mut Maps) {
    all_padded(maps);
    one_padded(maps);
    padded_alone(maps);
    minus_zeros(maps);
    coordinates(maps);
    text_lengths(maps);
}

/// A tile with a number in every place that can have one.
fn every_number() -> Tile {
    let text = |text: &[u8]| Some(text.to_vec());
    let point = Point {
        tags: vec![5, 0],
        values: values(&POI_TAGS, &[5, 0]),
        name: text(b"K\xC3\xA5"),
        house_number: text(b"1"),
        elevation: Some(-70),
        ..Point::at([100, -100])
    };
    let way = Way {
        tags: vec![5, 0],
        values: values(&WAY_TAGS, &[5, 0]),
        name: text(b"a\xFF"),
        house_number: text(b""),
        reference: text(b"E6"),
        label: Some([1, -2]),
        data_blocks: Some(2),
        data: vec![vec![vec![[3, -64], [64, 5]]], vec![]],
        ..Way::of(Vec::new())
    };
    let second = Way { double: true, ..Way::of(vec![[9, 9], [-1, 1], [1, -1]]) };
    Tile::of(&[point], &[way, second])
}

/// All numbers in 2 bytes and so on, and in one byte too many.
fn all_padded(maps: &mut Maps) {
    let padded = |width| every_number().bytes(&mut Numbers::padded(width));
    let tiles: Vec<Vec<u8>> = (1..=MOST + 1).map(padded).collect();
    maps.add_tiles(&tiles);
}

/// Each number alone: 6 bytes are more than `read_vbe_u` holds, 10 are too many.
fn one_padded(maps: &mut Maps) {
    let mut plain = Numbers::plain();
    every_number().bytes(&mut plain);
    let one = |only, width| every_number().bytes(&mut Numbers::one_padded(only, width));
    let all = 0..plain.written();
    let tiles: Vec<Vec<u8>> =
        all.flat_map(|only| [5, 6, MOST, MOST + 1].map(|width| one(only, width))).collect();
    maps.add_tiles(&tiles);
}

/// All numbers padded, in a map that ends with the last of them.
fn padded_alone(maps: &mut Maps) {
    for width in [2, MOST, MOST + 1] {
        maps.add_alone(every_number().bytes(&mut Numbers::padded(width)));
    }
}

/// Minus zero is 0, also in two bytes.
fn minus_zeros(maps: &mut Maps) {
    let point = [0x40, 0xC0, 0x40, 0x50, 0x20, 0x40];
    let nodes = [0x01, 0x03, 0x40, 0x40, 0x80, 0x40, 0x40, 0x40, 0x00];
    for double in [false, true] {
        let way = Way { double, label: Some([0, 0]), ..Way::of_raw(nodes.to_vec()) };
        let mut tile = Tile { first_way: Some(6), ..Tile::of(&[], &[way]) };
        tile.rows = vec![[1, 1]];
        let mut bytes = tile.plain();
        bytes.splice(3..3, point);
        maps.add_alone(bytes);
    }
}

/// Coordinates at the limit and past it, in every place of one.
fn coordinates(maps: &mut Maps) {
    let mut tiles = Vec::new();
    for value in [LARGEST, LARGEST + 1, -LARGEST, -LARGEST - 1, (1 << 62) - 1] {
        tiles.extend(with_coordinate(value).map(|tile| tile.plain()));
    }
    maps.add_tiles(&tiles);
}

/// The value as latitude and as longitude of a point, a label, a first node, a later one, and the
/// node of a second way.
fn with_coordinate(value: i64) -> [Tile; 10] {
    [0, 1, 2, 3, 4, 5, 6, 7, 8, 9].map(|place| {
        let mut tile = every_number();
        let position = match place / 2 {
            0 => &mut tile.points[0].position,
            1 => tile.ways[0].label.as_mut().expect("a label"),
            2 => &mut tile.ways[0].data[0][0][0],
            3 => &mut tile.ways[0].data[0][0][1],
            _ => &mut tile.ways[1].data[0][0][2],
        };
        position[place % 2] = value;
        tile
    })
}

/// Lengths at the limit, past it, and such as `read_vbe_u` would cut to 3, in every place of a text.
fn text_lengths(maps: &mut Maps) {
    let wide = [32, 35, 62].map(|power| unsigned((1 << power) + 3));
    let near = [LONGEST, LONGEST + 1].map(unsigned);
    let padded = [unsigned_in(3, 6), unsigned_in(LONGEST + 1, 8), vec![0x80; 6], vec![0x80; 9]];
    for length in near.into_iter().chain(wide).chain(padded) {
        let text = [&length, &b"abc"[..]].concat();
        for flag in [0x80, 0x40, 0x20] {
            // behind the text of a way a data block of no blocks
            let way = Way { flags: flag, ..Way::of_raw([&text, &[0][..]].concat()) };
            maps.add_alone(Tile::of(&[], &[way]).plain());
        }
        for flag in [0x80, 0x40] {
            maps.add_alone([&[1, 0, 0, 0, 0, 0x50, flag], text.as_slice()].concat());
        }
    }
}
