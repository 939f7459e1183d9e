//! Sub files, tiles, points and ways.

use crate::leaves::sample::{signed, signed_in, unsigned, unsigned_in};
use crate::maps::writer::{entry, INDEX_SIGNATURE};
use crate::random::Random;

/// The size of a signature of a tile, point or way.
const SIGNATURE: usize = 32;

/// The flags of a point's optional fields; a way has the first two also.
const NAME: u8 = 0x80;
const HOUSE_NUMBER: u8 = 0x40;
const ELEVATION: u8 = 0x20;

/// The other flags of a way.
const REFERENCE: u8 = 0x20;
const LABEL: u8 = 0x10;
const DATA_BLOCKS: u8 = 0x08;
const DOUBLE: u8 = 0x04;

/// Writes the numbers of a tile: all of them, a single one, or some at random, in at least so many bytes, or a single one as
/// bytes that are given.
pub struct Numbers {
    width: usize,
    only: Option<usize>,
    /// In place of that number.
    bytes: Option<Vec<u8>>,
    /// One in so many numbers is padded.
    some: Option<(usize, Random)>,
    written: usize,
}

impl Numbers {
    /// Each number in the fewest bytes.
    pub fn plain() -> Self {
        Numbers::padded(1)
    }

    pub fn padded(width: usize) -> Self {
        Numbers { width, only: None, bytes: None, some: None, written: 0 }
    }

    /// Only the number that is written as the `only`-th, counting from 0.
    pub fn one_padded(only: usize, width: usize) -> Self {
        Numbers { only: Some(only), ..Numbers::padded(width) }
    }

    /// These bytes in place of the `only`-th number, which is then another one, or none.
    pub fn one_as(only: usize, bytes: &[u8]) -> Self {
        Numbers { only: Some(only), bytes: Some(bytes.to_vec()), ..Numbers::plain() }
    }

    /// One in so many, by the numbers that start here, in up to three bytes more.
    pub fn some_padded(one_in: usize, seed: u64) -> Self {
        Numbers { some: Some((one_in, Random::new(seed))), ..Numbers::plain() }
    }

    /// How many numbers were written.
    pub fn written(&self) -> usize {
        self.written
    }

    /// The next number, which needs so many bytes, in as many as it shall have.
    fn next(&mut self, needed: usize, write: impl FnOnce(usize) -> Vec<u8>) -> Vec<u8> {
        let chosen = self.only.is_none_or(|only| only == self.written);
        self.written += 1;
        if let Some(bytes) = self.bytes.as_ref().filter(|_| chosen) {
            return bytes.clone();
        }
        let more = self.some.as_mut().map_or(0, |(one_in, random)| match random.below(*one_in) {
            0 => 1 + random.below(3),
            _ => 0,
        });
        write(needed.max(if chosen { self.width } else { 1 }) + more)
    }

    fn unsigned(&mut self, value: u64) -> Vec<u8> {
        self.next(unsigned(value).len(), |length| unsigned_in(value, length))
    }

    fn signed(&mut self, value: i64) -> Vec<u8> {
        let (negative, magnitude) = (value < 0, value.unsigned_abs());
        let needed = signed(negative, magnitude).len();
        self.next(needed, |length| signed_in(negative, magnitude, length))
    }

    fn position(&mut self, [latitude, longitude]: [i64; 2]) -> Vec<u8> {
        [self.signed(latitude), self.signed(longitude)].concat()
    }

    fn text(&mut self, text: &[u8]) -> Vec<u8> {
        [&self.unsigned(text.len() as u64), text].concat()
    }

    fn optional_text(&mut self, text: &Option<Vec<u8>>) -> Vec<u8> {
        text.as_ref().map_or(Vec::new(), |text| self.text(text))
    }

    fn tags(&mut self, ids: &[u64], values: &[Value]) -> Vec<u8> {
        let mut bytes: Vec<u8> = ids.iter().flat_map(|&id| self.unsigned(id)).collect();
        for value in values {
            match value {
                Value::Fixed(value) => bytes.extend(value),
                Value::Text(value) => bytes.extend(self.text(value)),
            }
        }
        bytes
    }
}

/// An inline value of a tag; one of the letter s has its length before it.
#[derive(Clone)]
pub enum Value {
    Fixed(Vec<u8>),
    Text(Vec<u8>),
}

/// A point. Positions are stored ones, in microdegrees, here and below.
#[derive(Clone)]
pub struct Point {
    pub position: [i64; 2],
    /// The layer + 5.
    pub layer: u8,
    pub tags: Vec<u64>,
    pub values: Vec<Value>,
    /// Flags beside those of the optional fields.
    pub flags: u8,
    pub name: Option<Vec<u8>>,
    pub house_number: Option<Vec<u8>>,
    pub elevation: Option<i64>,
}

impl Point {
    /// A point with nothing but a position.
    pub fn at(position: [i64; 2]) -> Self {
        Point {
            position,
            layer: 5,
            tags: Vec::new(),
            values: Vec::new(),
            flags: 0,
            name: None,
            house_number: None,
            elevation: None,
        }
    }

    fn bytes(&self, numbers: &mut Numbers) -> Vec<u8> {
        let fields = [
            (NAME, self.name.is_some()),
            (HOUSE_NUMBER, self.house_number.is_some()),
            (ELEVATION, self.elevation.is_some()),
        ];
        [
            numbers.position(self.position),
            vec![special(self.layer, &self.tags)],
            numbers.tags(&self.tags, &self.values),
            vec![with_flags(self.flags, &fields)],
            numbers.optional_text(&self.name),
            numbers.optional_text(&self.house_number),
            self.elevation.map_or(Vec::new(), |metres| numbers.signed(metres)),
        ]
        .concat()
    }
}

/// The stored numbers of a coordinate block: a position, then deltas.
pub type Block = Vec<[i64; 2]>;

#[derive(Clone)]
pub struct Way {
    /// The stored size; the right one if it is not given.
    pub size: Option<u64>,
    pub bitmap: u16,
    /// The layer + 5.
    pub layer: u8,
    pub tags: Vec<u64>,
    pub values: Vec<Value>,
    /// Flags beside those of the optional fields.
    pub flags: u8,
    pub name: Option<Vec<u8>>,
    pub house_number: Option<Vec<u8>>,
    pub reference: Option<Vec<u8>>,
    pub label: Option<[i64; 2]>,
    /// The count of data blocks; it is only written if it is given.
    pub data_blocks: Option<u64>,
    pub double: bool,
    /// The data blocks, each of coordinate blocks.
    pub data: Vec<Vec<Block>>,
    /// What stands behind the data blocks and counts as part of the way.
    pub rest: Vec<u8>,
}

impl Way {
    /// A way with nothing but a block.
    pub fn of(block: Block) -> Self {
        Way {
            size: None,
            bitmap: 0xFFFF,
            layer: 5,
            tags: Vec::new(),
            values: Vec::new(),
            flags: 0,
            name: None,
            house_number: None,
            reference: None,
            label: None,
            data_blocks: None,
            double: false,
            data: vec![vec![block]],
            rest: Vec::new(),
        }
    }

    /// A way with the bytes given in place of its data blocks.
    pub fn of_raw(rest: Vec<u8>) -> Self {
        Way { data: Vec::new(), rest, ..Way::of(Vec::new()) }
    }

    /// The right size, counted from the byte behind the size field.
    pub fn right_size(&self) -> u64 {
        self.behind_size(&mut Numbers::plain()).len() as u64
    }

    fn bytes(&self, numbers: &mut Numbers) -> Vec<u8> {
        let rest = self.behind_size(numbers);
        [numbers.unsigned(self.size.unwrap_or(rest.len() as u64)), rest].concat()
    }

    fn behind_size(&self, numbers: &mut Numbers) -> Vec<u8> {
        [
            self.bitmap.to_be_bytes().to_vec(),
            vec![special(self.layer, &self.tags)],
            numbers.tags(&self.tags, &self.values),
            vec![self.all_flags()],
            numbers.optional_text(&self.name),
            numbers.optional_text(&self.house_number),
            numbers.optional_text(&self.reference),
            self.label.map_or(Vec::new(), |label| numbers.position(label)),
            self.data_blocks.map_or(Vec::new(), |count| numbers.unsigned(count)),
            self.data.iter().flat_map(|blocks| data_block(blocks, numbers)).collect(),
            self.rest.clone(),
        ]
        .concat()
    }

    fn all_flags(&self) -> u8 {
        let fields = [
            (NAME, self.name.is_some()),
            (HOUSE_NUMBER, self.house_number.is_some()),
            (REFERENCE, self.reference.is_some()),
            (LABEL, self.label.is_some()),
            (DATA_BLOCKS, self.data_blocks.is_some()),
            (DOUBLE, self.double),
        ];
        with_flags(self.flags, &fields)
    }
}

/// The coordinate blocks behind their count, each of nodes behind their count.
fn data_block(blocks: &[Block], numbers: &mut Numbers) -> Vec<u8> {
    let mut bytes = numbers.unsigned(blocks.len() as u64);
    for block in blocks {
        bytes.extend(numbers.unsigned(block.len() as u64));
        block.iter().for_each(|&node| bytes.extend(numbers.position(node)));
    }
    bytes
}

fn special(layer: u8, tags: &[u64]) -> u8 {
    layer << 4 | tags.len() as u8
}

fn with_flags(flags: u8, fields: &[(u8, bool)]) -> u8 {
    let present = fields.iter().filter(|(_, present)| *present);
    present.fold(flags, |flags, (flag, _)| flags | flag)
}

#[derive(Clone, Default)]
pub struct Tile {
    /// Whether tile, points and ways have signatures.
    pub debug: bool,
    /// The zoom table: of each row the points and the ways.
    pub rows: Vec<[u64; 2]>,
    /// The first-way offset; the right one if it is not given.
    pub first_way: Option<u64>,
    pub points: Vec<Point>,
    pub ways: Vec<Way>,
}

impl Tile {
    /// A tile of one row.
    pub fn of(points: &[Point], ways: &[Way]) -> Self {
        let rows = vec![[points.len() as u64, ways.len() as u64]];
        Tile { rows, points: points.to_vec(), ways: ways.to_vec(), ..Tile::default() }
    }

    pub fn plain(&self) -> Vec<u8> {
        self.bytes(&mut Numbers::plain())
    }

    pub fn bytes(&self, numbers: &mut Numbers) -> Vec<u8> {
        let points = self.features("***POIStart", &self.points, |point| point.bytes(numbers));
        let ways = self.features("---WayStart", &self.ways, |way| way.bytes(numbers));
        let table = self.rows.as_flattened().iter().flat_map(|&count| numbers.unsigned(count));
        let head = [self.signature("###TileStart", 0), table.collect()].concat();
        let first_way = numbers.unsigned(self.first_way.unwrap_or(points.len() as u64));
        [head, first_way, points, ways].concat()
    }

    fn features<T>(&self, name: &str, all: &[T], mut bytes: impl FnMut(&T) -> Vec<u8>) -> Vec<u8> {
        let numbered = all.iter().enumerate();
        numbered.flat_map(|(k, one)| [self.signature(name, k), bytes(one)].concat()).collect()
    }

    fn signature(&self, name: &str, number: usize) -> Vec<u8> {
        let mut signature = format!("{name}{number}").into_bytes();
        signature.resize(if self.debug { SIGNATURE } else { 0 }, b' ');
        signature
    }
}

/// The index and the tiles behind it; every second entry has the water mark. A tile without bytes is marked empty: the
/// next entry has the same offset, or the sub file ends there.
pub fn sub_file(debug: bool, tiles: &[Vec<u8>]) -> Vec<u8> {
    with_water(debug, tiles, |k| k % 2 == 1)
}

/// The same with the water marks given.
pub fn with_water(debug: bool, tiles: &[Vec<u8>], water: impl Fn(usize) -> bool) -> Vec<u8> {
    let mut bytes = if debug { INDEX_SIGNATURE.to_vec() } else { Vec::new() };
    let mut offset = bytes.len() + tiles.len() * entry(false, 0).len();
    for (k, tile) in tiles.iter().enumerate() {
        bytes.extend(entry(water(k), offset as u64));
        offset += tile.len();
    }
    bytes.extend(tiles.concat());
    bytes
}
