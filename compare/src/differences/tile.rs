//! A tile as document 01 and the format document have it, read without the Rust. The first place where
//! the Rust parts from that is noted. Up to there the two must agree, and from there on the port's
//! answer is this one.

mod features;
#[cfg(feature = "both")]
mod parts;
mod reader;
mod tags;

use std::ops::Range;

use mapsforge_rs::header::DEBUG_INFO_MASK;
use mapsforge_rs::types::{MapFile, MapHeader, ZoomInterval};

#[cfg(feature = "both")]
pub use parts::{StreamParts, WayParts};
pub use reader::{Cause, Parting};
pub use tags::Listed;
#[cfg(feature = "both")]
pub use tags::Table;

use super::ENTRY_BYTES;
use crate::answer::Answer;
use crate::source::Source;
use crate::tiles::delivery::Delivery;
#[cfg(feature = "both")]
use crate::tiles::feature::Block;
use crate::tiles::feature::{Collected, Text, Tile};
use crate::tiles::Address;
use reader::{cut, cut_off, Read, Reader, View};

/// The sizes of the signatures of an index, and of a tile, point or way.
const INDEX_SIGNATURE: u64 = 16;
const SIGNATURE: u64 = 32;

/// Wish 2: "19 when the five bytes of the index entry run past the map", "20 when the tile's signature,
/// zoom table or first-way offset does".
const INDEX_CUT_OFF: u64 = 19;
const HEAD_CUT_OFF: u64 = 20;

/// The port's answer, and where the Rust first parts from it.
pub struct Port {
    pub answer: Answer,
    pub parting: Option<Parting>,
    /// The places of the texts that were read, in their order.
    #[cfg_attr(not(feature = "both"), allow(dead_code))]
    pub texts: Vec<u64>,
    /// Whether all numbers that were read are plain.
    #[cfg_attr(not(feature = "both"), allow(dead_code))]
    pub plain: bool,
    /// The longest of a stream's texts as stored, and how many of them are no UTF-8.
    #[cfg_attr(not(feature = "both"), allow(dead_code))]
    pub longest: u64,
    #[cfg_attr(not(feature = "both"), allow(dead_code))]
    pub ill_formed: u64,
}

impl Port {
    /// Of what is collected or fetched, with what is said of streams alone left out.
    fn of(answer: Answer, parting: Option<Parting>, plain: bool) -> Self {
        Port { answer, parting, texts: Vec::new(), plain, longest: 0, ill_formed: 0 }
    }
}

/// The blocks of a way, the place behind them, and whether all their numbers are plain.
#[cfg(feature = "both")]
pub struct WayData {
    pub blocks: Vec<Block>,
    pub end: u64,
    pub plain: bool,
}

/// Where collecting a tile reads.
#[cfg(feature = "both")]
pub struct ReadParts {
    /// From its start to the furthest byte.
    pub bytes: Range<usize>,
    /// All numbers, and the ways' stored sizes among them.
    pub numbers: Vec<Range<usize>>,
    pub sizes: Vec<Range<usize>>,
}

/// A map's bytes, and the header that was read from it, or from what it was before it was damaged. Its tags are those
/// of the header, or those that are listed.
#[derive(Clone, Copy)]
pub struct Opened<'a> {
    pub map: &'a [u8],
    pub header: &'a MapHeader,
    listed: Option<Listed<'a>>,
}

impl<'a> Opened<'a> {
    pub fn of(file: &'a MapFile<Source>) -> Self {
        Opened { map: file.reader.map(), header: &file.header, listed: None }
    }

    /// The same with tags by lists.
    #[cfg(feature = "both")]
    pub fn listed(self, listed: Listed<'a>) -> Self {
        Opened { listed: Some(listed), ..self }
    }

    /// The stored text that starts at a place, or the refusal.
    pub fn text_at(self, start: u64) -> Result<Range<u64>, Answer> {
        let mut reader = Reader::new(self, View::Streamed);
        reader.seek(u128::from(start));
        reader.text()?;
        Ok(reader.texts[0]..reader.at() as u64)
    }

    /// `read_tile`.
    pub fn collect(self, address: &Address) -> Port {
        let mut reader = Reader::new(self, View::Collected);
        let tile = reader.tile(address);
        let answer = tile.map_or_else(|refusal| refusal, |tile| tile.answer());
        Port::of(answer, reader.parting, reader.padded == 0)
    }

    /// Feature `k` of the collected tile, with its tags.
    pub fn fetch(self, address: &Address, k: usize) -> Port {
        let (tile, parting) = self.fetched(address);
        let answer = tile.map_or_else(|refusal| refusal, |tile| tile.answer(k));
        Port::of(answer, parting, true)
    }

    /// The collected tile with the texts of its features, or the refusal.
    pub fn fetched(self, address: &Address) -> (Result<Collected, Answer>, Option<Parting>) {
        let mut reader = Reader::new(self, View::Collected);
        let tile = reader.tile(address);
        let Reader { parting, signatures, places, .. } = reader;
        let with_texts = |tile: Tile| {
            let texts = tile.features().map(|feature| tags::texts(&feature, self)).collect();
            Collected { tile, texts, signatures, places }
        };
        (tile.map(with_texts), parting)
    }

    /// Wish 8: the one point or way that is read from a place on, as a tile that has nothing else, or the refusal; and
    /// where reading ends.
    #[cfg(feature = "both")]
    pub fn feature_at(self, place: u64, is_way: bool) -> (Result<Collected, Answer>, u128) {
        let mut reader = Reader::new(self, View::Collected);
        reader.seek(u128::from(place));
        let alone = reader.alone(is_way);
        let end = reader.at();
        let with_texts = |tile: Tile| {
            let texts = tile.features().map(|feature| tags::texts(&feature, self)).collect();
            // the first one would be the tile's
            Collected { tile, texts, signatures: vec![0, place], places: vec![place] }
        };
        (alone.map(with_texts), end)
    }

    /// `visit_tile`; the answer is 0, sub file and water mark, or the refusal.
    pub fn stream(self, address: &Address, zoom: u8, delivery: &mut impl Delivery) -> Port {
        let mut reader = Reader::new(self, View::Streamed);
        let ended = reader.stream(address, zoom, delivery);
        let end = |water| vec![0, address.sub_file, u64::from(water)];
        let answer = ended.map_or_else(|refusal| refusal, end);
        let plain = reader.padded == 0;
        let Reader { parting, texts, longest, ill_formed, .. } = reader;
        Port { answer, parting, texts, plain, longest, ill_formed }
    }

    /// Whether no stored count is above the number of the map's bytes. Above that a tile does not
    /// collect, and `read_tile` of the Rust, which reserves what is stored, may end the process.
    pub fn has_fair_counts(self, address: &Address) -> bool {
        let head = Reader::new(self, View::Collected).head(address);
        let fair = |count: &u64| *count <= self.map.len() as u64;
        head.map_or(true, |head| head.table.as_flattened().iter().all(fair))
    }

    /// `tile_index_entry`: 0, water mark, offset and place, or the refusal.
    pub fn entry(self, address: &Address) -> Answer {
        let mut reader = Reader::new(self, View::Collected);
        let entry = reader.entry(address);
        let words =
            |Entry { water, offset, place, .. }| vec![0, u64::from(water), offset, cut(place)];
        entry.map_or_else(|refusal| refusal, words)
    }

    /// Where a tile's entry, with the next one, and its head are read, each from its start to where reading ends.
    #[cfg(feature = "both")]
    pub fn head_parts(self, address: &Address) -> Vec<Range<u128>> {
        let mut reader = Reader::new(self, View::Collected);
        // a refused head has places too
        drop(reader.head(address));
        let head = reader.tile_start.map(|start| start..reader.at());
        reader.entries.into_iter().chain(head).collect()
    }

    /// Whether a tile is marked empty, and nothing is refused before that.
    #[cfg(feature = "both")]
    pub fn is_empty(self, address: &Address) -> bool {
        let mut reader = Reader::new(self, View::Collected);
        let opens = reader.head(address).is_ok();
        opens && reader.parting.is_some_and(|parting| parting.cause == Cause::Empty)
    }

    /// Wish 6: whether all numbers of the tile's head are plain, rows above the zoom and the first-way offset included; of
    /// an empty tile they are. The refusal, if there is no head.
    #[cfg(feature = "both")]
    pub fn head_plain(self, address: &Address) -> Result<bool, Answer> {
        let mut reader = Reader::new(self, View::Streamed);
        reader.head(address).map(|_| reader.padded == 0)
    }

    /// The refusal by which a stream of the tile does not open.
    #[cfg(feature = "both")]
    pub fn unopened(self, address: &Address) -> Option<Answer> {
        Reader::new(self, View::Streamed).head(address).err()
    }

    /// How many points and ways a tile's zoom table counts up to a zoom, or the refusal by which a stream
    /// of the tile does not open.
    #[cfg(feature = "both")]
    pub fn counted(self, address: &Address, zoom: u8) -> Result<[u128; 2], Answer> {
        let mut reader = Reader::new(self, View::Streamed);
        let head = reader.head(address)?;
        Ok(reader.counts(head.rows(zoom)))
    }

    /// None if collecting the tile reads nothing behind the entry.
    #[cfg(feature = "both")]
    pub fn read_parts(self, address: &Address) -> Option<ReadParts> {
        let mut reader = Reader::new(self, View::Collected);
        reader.trace = Some(Vec::new());
        // a refused tile has read bytes too
        drop(reader.tile(address));
        let start = usize::try_from(reader.tile_start?).ok()?;
        let bytes = start..reader.furthest();
        let (numbers, sizes) = (reader.trace.unwrap_or_default(), reader.sizes);
        (!bytes.is_empty()).then_some(ReadParts { bytes, numbers, sizes })
    }

    /// The collected tile with its texts as a stream gives them, or the refusal.
    #[cfg(feature = "both")]
    pub fn streamed_tile(self, address: &Address) -> Result<Tile, Answer> {
        Reader::new(self, View::Streamed).tile(address)
    }

    /// Where the points and ways of a tile up to a zoom stand, or the refusal.
    #[cfg(feature = "both")]
    pub fn stream_parts(self, address: &Address, zoom: u8) -> Result<StreamParts, Answer> {
        Reader::new(self, View::Streamed).stream_parts(address, zoom)
    }

    /// A way's data from a place on, or the refusal.
    #[cfg(feature = "both")]
    pub fn way_data(
        self,
        at: usize,
        data_blocks: u64,
        double: bool,
    ) -> (Result<WayData, Answer>, Option<Parting>) {
        let mut reader = Reader::new(self, View::Streamed);
        reader.seek(at as u128);
        let blocks = reader.blocks(data_blocks, double);
        let (end, plain) = (reader.at() as u64, reader.padded == 0);
        (blocks.map(|blocks| WayData { blocks, end, plain }), reader.parting)
    }

    fn debug(self) -> bool {
        self.header.flags & DEBUG_INFO_MASK != 0
    }
}

/// An index entry, and the interval of its sub file.
struct Entry<'a> {
    interval: &'a ZoomInterval,
    water: bool,
    offset: u64,
    /// Where the tile stands in the map.
    place: u128,
}

/// What stands before a tile's features.
struct Head {
    water: bool,
    signature: Option<Text>,
    /// The zoom of the table's first row.
    lowest: u8,
    table: Vec<[u64; 2]>,
    first_way: u64,
    /// The place that the first-way offset leads to.
    ways: u128,
}

impl Head {
    /// Wish 5: "Such a tile has zero points and zero ways, an all-zero zoom table, first-way offset 0, no
    /// signature, and keeps its water mark."
    fn empty(water: bool, lowest: u8, highest: u8) -> Self {
        let table = (lowest..=highest).map(|_| [0, 0]).collect();
        Head { water, signature: None, lowest, table, first_way: 0, ways: 0 }
    }

    /// "Zoom is clamped into the interval; rows up to it count."
    fn rows(&self, zoom: u8) -> &[[u64; 2]] {
        let rows = usize::from(zoom.saturating_sub(self.lowest)) + 1;
        &self.table[..rows.min(self.table.len())]
    }
}

impl<'a> Reader<'a> {
    /// "Collecting decodes every row".
    fn tile(&mut self, address: &Address) -> Read<Tile> {
        let Head { signature, table, first_way, ways: place, .. } = self.head(address)?;
        let [points, ways] = self.counts(&table);
        let point = |_| {
            self.places.push(cut(self.at()));
            self.point()
        };
        let points = (0..points).map(point).collect::<Read<_>>()?;
        self.seek(place);
        let mut exact = true;
        let way = |_| {
            self.places.push(cut(self.at()));
            let head = self.way_head()?;
            let stored_end = head.stored_end;
            let way = self.way_body(head)?;
            exact &= self.at() == stored_end;
            Ok(way)
        };
        let ways = (0..ways).map(way).collect::<Read<_>>()?;
        let padded = self.padded;
        Ok(Tile { signature, table, first_way, points, ways, exact, padded: Some(padded) })
    }

    /// A point or a way from here on, in a tile that has no head.
    #[cfg(feature = "both")]
    fn alone(&mut self, is_way: bool) -> Read<Tile> {
        let (mut points, mut ways) = (Vec::new(), Vec::new());
        if is_way {
            let head = self.way_head()?;
            ways.push(self.way_body(head)?);
        } else {
            points.push(self.point()?);
        }
        let (signature, table, first_way, exact, padded) = (None, Vec::new(), 0, true, None);
        Ok(Tile { signature, table, first_way, points, ways, exact, padded })
    }

    /// Answers the water mark.
    fn stream(&mut self, address: &Address, zoom: u8, delivery: &mut impl Delivery) -> Read<bool> {
        let head = self.head(address)?;
        let [points, ways] = self.counts(head.rows(zoom));
        for _ in 0..points {
            delivery.point(self.point()?);
        }
        self.seek(head.ways);
        for _ in 0..ways {
            let way = self.way_head()?;
            if delivery.head(way.shown()) {
                delivery.way(self.way_body(way)?);
            } else {
                self.seek(way.stored_end);
            }
        }
        Ok(head.water)
    }

    /// "Order for a tile: sub file (8), grid (14), tile (8), entry (1), interval (13), then bytes in
    /// file order", with 19 "where 1 stood in the order", of the tile's entry and then of the next one.
    fn head(&mut self, address: &Address) -> Read<Head> {
        let Entry { interval, water, offset, place } = self.entry(address)?;
        let next = self.next_offset(address, interval)?;
        let (lowest, highest) = (interval.min_zoom_level, interval.max_zoom_level);
        if lowest > highest {
            return Err(self.parted(Cause::Interval, vec![13]));
        }
        if offset == next {
            self.note(Cause::Empty);
            return Ok(Head::empty(water, lowest, highest));
        }
        self.seek(place);
        self.tile_start = Some(place);
        // one read, which begins with its first byte, however many of them are there
        let signature = self.signature();
        let signature = signature.map_err(|refusal| cut_off(refusal, HEAD_CUT_OFF, place))?;
        let row = |_| Ok([self.head_number()?, self.head_number()?]);
        let table = (lowest..=highest).map(row).collect::<Read<_>>()?;
        let first_way = self.head_number()?;
        let ways = self.at() + u128::from(first_way);
        Ok(Head { water, signature, lowest, table, first_way, ways })
    }

    /// "in a number of 7-bit groups, that of its missing byte".
    fn head_number(&mut self) -> Read<u64> {
        let missing = self.missing_byte();
        self.unsigned().map_err(|refusal| cut_off(refusal, HEAD_CUT_OFF, missing))
    }

    /// "An index entry is 5 bytes: top bit water, 39 bits offset".
    fn entry(&mut self, address: &Address) -> Read<Entry<'a>> {
        let intervals = &self.opened.header.zoom_interval_configuration;
        let interval = intervals.get(address.sub_file as usize).ok_or(vec![8])?;
        let Some(tiles) = address.grid.tiles() else {
            return Err(self.parted(Cause::Grid, vec![14]));
        };
        if address.tile >= u64::from(tiles) {
            return Err(vec![8]);
        }
        let start = interval.sub_file_start;
        let signature = if self.opened.debug() { INDEX_SIGNATURE } else { 0 };
        if super::entry(start, signature, address.tile).is_some() {
            self.note(Cause::Entry);
        }
        let entry = super::entry_place(start, signature, address.tile);
        self.seek(entry);
        self.entries = Some(entry..entry + ENTRY_BYTES);
        let (water, offset) = self.entry_here()?;
        let place = u128::from(start) + u128::from(offset);
        Ok(Entry { interval, water, offset, place })
    }

    /// The water mark and the offset of the entry that starts here.
    fn entry_here(&mut self) -> Read<(bool, u64)> {
        let start = self.at();
        let bytes = self.bytes(ENTRY_BYTES as u64);
        let bytes = bytes.map_err(|refusal| cut_off(refusal, INDEX_CUT_OFF, start))?;
        let word = bytes.iter().fold(0, |word, &byte| word << 8 | u64::from(byte));
        Ok((word >> 39 == 1, word & ((1 << 39) - 1)))
    }

    /// Wish 5: "marks a tile with no features by giving the next entry the same offset; for the last tile
    /// the offset then equals the sub file's size". The next entry is behind the tile's own, which was just read;
    /// the Rust does not look at it.
    fn next_offset(&mut self, address: &Address, interval: &ZoomInterval) -> Read<u64> {
        if address.grid.tiles().is_some_and(|tiles| address.tile + 1 == u64::from(tiles)) {
            return Ok(interval.sub_file_size);
        }
        let (own, start) = (self.entries.take(), self.at());
        self.entries = own.map(|own| own.start..start + ENTRY_BYTES);
        match self.entry_here() {
            Ok((_, offset)) => Ok(offset),
            Err(refusal) => Err(self.parted(Cause::NextEntry, refusal)),
        }
    }

    /// "Sums past 64 bits and counts too large to reserve are read as far as the map goes".
    fn counts(&mut self, table: &[[u64; 2]]) -> [u128; 2] {
        let sum = |column: usize| table.iter().map(|row| u128::from(row[column])).sum();
        let sums: [u128; 2] = [sum(0), sum(1)];
        if sums.iter().any(|&sum| sum > u128::from(u64::MAX)) {
            self.note(Cause::Sum);
        }
        sums
    }

    /// The bytes of a signature, if there is one.
    fn signature(&mut self) -> Read<Option<Text>> {
        let debug = self.opened.debug();
        let place = self.at() as u64;
        let bytes = self.bytes(if debug { SIGNATURE } else { 0 })?;
        if debug {
            self.signatures.push(place);
        }
        Ok(debug.then(|| bytes.to_vec()))
    }
}
