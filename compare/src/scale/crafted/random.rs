//! Random tiles, whole and with random faults.

use super::writer::{sub_file, Block, Numbers, Point, Tile, Way};
use super::{all, header, values, Maps, POI_TAGS, TEXTS, WAY_TAGS};
use crate::maps::writer::{Header, DEBUG};
use crate::random::{repeat, Random};

const SEED: u64 = 0x711E5;
/// The number of maps, and of the tiles in each.
const MAPS: usize = 10;
const TILES: usize = 24;
/// So many numbers are passed over behind each map, so that the next ones are those of earlier runs.
const PASSED: usize = 7 * TILES;

pub fn add(maps: &mut Maps) {
    let mut random = Random::new(SEED);
    repeat(MAPS, || random.add_map(maps));
}

impl Random {
    fn add_map(&mut self, maps: &mut Maps) {
        let lowest = self.below(20) as u8;
        let zooms = [0, lowest, lowest + self.below(4) as u8];
        let debug = self.below(4) == 0;
        let flags = if debug { DEBUG } else { 0 };
        let rows = usize::from(zooms[2] - zooms[1]) + 1;
        let tiles: Vec<Vec<u8>> = (0..TILES).map(|_| self.tile(debug, rows)).collect();
        let header = Header { flags, ..header(&[zooms]) };
        maps.add(header.before_all(&[sub_file(debug, &tiles)]), all(TILES));
        repeat(PASSED, || {
            self.next();
        });
    }

    /// A tile that is good, or has up to three bytes replaced, or a wrong number.
    fn tile(&mut self, debug: bool, rows: usize) -> Vec<u8> {
        let mut tile = Tile { debug, ..Tile::default() };
        for _ in 0..rows {
            let row = [self.below(3), self.below(4)];
            repeat(row[0], || tile.points.push(self.point()));
            repeat(row[1], || tile.ways.push(self.way()));
            tile.rows.push(row.map(|count| count as u64));
        }
        if self.below(8) == 0 {
            tile.first_way = Some(self.below(100) as u64);
        }
        let mut bytes = tile.bytes(&mut self.numbers());
        for _ in 0..[0, 0, 1, 3][self.below(4)] {
            let place = self.below(bytes.len());
            bytes[place] = [self.byte(), bytes[place] ^ 1 << self.below(8), 0x80][self.below(3)];
        }
        bytes
    }

    fn numbers(&mut self) -> Numbers {
        match self.below(6) {
            0 => Numbers::padded(1 + self.below(9)),
            1 => Numbers::one_padded(self.below(40), 1 + self.below(10)),
            _ => Numbers::plain(),
        }
    }

    fn point(&mut self) -> Point {
        let tags = self.ids(POI_TAGS.len());
        Point {
            position: [self.coordinate(), self.coordinate()],
            layer: self.below(16) as u8,
            values: values(&POI_TAGS, &tags),
            tags,
            flags: self.byte() & 0x1F,
            name: self.maybe(2, Random::text),
            house_number: self.maybe(4, Random::text),
            elevation: self.maybe(4, Random::coordinate),
        }
    }

    fn way(&mut self) -> Way {
        let tags = self.ids(WAY_TAGS.len());
        let data: Vec<Vec<Block>> = (0..[1, 1, 1, 0, 2][self.below(5)])
            .map(|_| (0..[1, 1, 2, 0][self.below(4)]).map(|_| self.block()).collect())
            .collect();
        let counted = data.len() != 1 || self.below(4) == 0;
        Way {
            size: self.maybe(12, |random| random.below(60) as u64),
            bitmap: self.next() as u16,
            layer: self.below(16) as u8,
            values: values(&WAY_TAGS, &tags),
            tags,
            flags: self.byte() & 3,
            name: self.maybe(3, Random::text),
            house_number: self.maybe(6, Random::text),
            reference: self.maybe(6, Random::text),
            label: self.maybe(4, |random| [random.coordinate(), random.coordinate()]),
            data_blocks: counted.then_some(data.len() as u64),
            double: self.below(2) == 0,
            data,
            rest: Vec::new(),
        }
    }

    /// Up to four ids, at times one that is not there.
    fn ids(&mut self, tags: usize) -> Vec<u64> {
        let past = usize::from(self.below(40) == 0);
        (0..self.below(5)).map(|_| self.below(tags + past) as u64).collect()
    }

    fn block(&mut self) -> Block {
        (0..self.below(6)).map(|_| [self.coordinate(), self.coordinate()]).collect()
    }

    /// Mostly a small number, at times one near the limit of coordinates.
    fn coordinate(&mut self) -> i64 {
        let bits = [6, 10, 14, 20, 30, 53][self.below(6)];
        let magnitude = self.next() as i64 & ((1 << bits) - 1);
        let magnitude = magnitude + i64::from(self.below(400) == 0) * (1 << 53);
        magnitude * [1, -1][self.below(2)]
    }

    fn text(&mut self) -> Vec<u8> {
        TEXTS[self.below(TEXTS.len())].to_vec()
    }

    fn maybe<T>(&mut self, one_in: usize, make: impl FnOnce(&mut Self) -> T) -> Option<T> {
        (self.below(one_in) == 0).then(|| make(self))
    }
}
