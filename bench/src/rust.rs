//! The Rust's side. It keeps the opened map from call to call.

use std::hint::black_box;

use mapsforge_rs::grid;
use mapsforge_rs::types::{LatLong, MapFile, MapHeader, Tag, Tile, Way, ZoomInterval, POI};
use mapsforge_rs::visit::{PoiInfo, TileMeta, TileVisitor, WayInfo};

use crate::answer::{refused, Fold};
use crate::map::Map;
use crate::source::Source;
use crate::tally::{self, Tally};
use crate::work::{Side, Work};

pub struct Rust<'a> {
    map: &'a Map,
    file: MapFile<Source<'a>>,
}

impl<'a> Rust<'a> {
    pub fn new(map: &'a Map) -> Self {
        Rust { map, file: opened(map) }
    }
}

fn opened(map: &Map) -> MapFile<Source<'_>> {
    MapFile::from_source(Source::new(black_box(&map.bytes))).expect("a map that opens")
}

/// Whether ways are declined, in one call or in two.
fn declines(work: Work) -> bool {
    matches!(work, Work::Decline | Work::Skip)
}

impl Side for Rust<'_> {
    fn run(&mut self, work: Work, tally: &mut Tally) {
        if work == Work::Open {
            let file = black_box(opened(self.map));
            return tally.digest(|fold| header(fold, &file.header));
        }
        for (sub_file, of) in self.map.sub_files.iter().enumerate() {
            match work {
                Work::Interval => {
                    self.interval(sub_file, tally);
                    continue;
                }
                Work::SubFile => {
                    self.sub_file(of.lowest_zoom, tally);
                    continue;
                }
                _ => (),
            }
            grid::lend(of.grid);
            let zoom = if work == Work::Lowest { of.lowest_zoom } else { u8::MAX };
            for &tile in work.tiles(of) {
                tally.tiles += 1;
                match work {
                    Work::Collect => self.collect(sub_file, tile, tally, collected),
                    Work::Fetch => self.collect(sub_file, tile, tally, fetched),
                    _ => self.stream(sub_file, tile, zoom, !declines(work), tally),
                }
            }
        }
    }
}

impl Rust<'_> {
    fn interval(&self, sub_file: usize, tally: &mut Tally) {
        let got = self.file.header.zoom_interval_configuration.get(black_box(sub_file));
        let got = black_box(got.expect("a sub file"));
        tally.calls += 1;
        tally.digest(|fold| interval(fold, got));
    }

    fn sub_file(&self, zoom: u8, tally: &mut Tally) {
        let found = black_box(self.file.sub_file_for_zoom(black_box(zoom)));
        tally.calls += 1;
        tally.digest(|fold| fold.words(&[1, found.expect("a sub file") as u64]));
    }

    fn stream(&mut self, sub_file: usize, tile: usize, zoom: u8, accept: bool, tally: &mut Tally) {
        let mut visitor = Visitor { tally, accept };
        match self.file.visit_tile(sub_file, tile, zoom, &mut visitor) {
            Ok(TileMeta { sub_file, is_water }) => {
                tally.digest(|fold| fold.words(&[sub_file as u64, is_water.into()]))
            }
            Err(error) => tally.refuse(|| refused(&error)[0]),
        }
    }

    fn collect(
        &mut self,
        sub_file: usize,
        tile: usize,
        tally: &mut Tally,
        show: fn(&Tile, &MapHeader, &mut Tally),
    ) {
        match self.file.read_tile(sub_file, tile) {
            Ok(tile) => show(black_box(&tile), &self.file.header, tally),
            Err(error) => tally.refuse(|| refused(&error)[0]),
        }
    }
}

/// Accepts or declines all ways.
struct Visitor<'a> {
    tally: &'a mut Tally,
    accept: bool,
}

impl TileVisitor for Visitor<'_> {
    fn poi(&mut self, point: &PoiInfo) {
        let point = black_box(point);
        self.tally.points += 1;
        self.tally.digest(|fold| {
            tally::degrees(fold, pair(&point.position));
            fold.word(point.layer as u64);
            ids(fold, point.tag_ids);
            tally::text(fold, point.name.map(str::as_bytes));
            tally::text(fold, point.house_number.map(str::as_bytes));
            tally::number(fold, point.elevation.map(i64::from));
        });
    }

    fn way(&mut self, way: &WayInfo) {
        let way = black_box(way);
        self.tally.blocks += way.blocks.len() as u64;
        self.tally.nodes += way.blocks.iter().map(|block| block.len() as u64).sum::<u64>();
        self.tally.digest(|fold| {
            fold.word(way.layer as u64);
            for text in [way.name, way.house_number, way.reference] {
                tally::text(fold, text.map(str::as_bytes));
            }
            label(fold, &way.label_position);
            way.blocks.iter().for_each(|block| nodes(fold, block));
        });
    }

    fn accept_way(&mut self, bitmap: u16, tag_ids: &[usize]) -> bool {
        black_box(tag_ids);
        self.tally.ways += 1;
        self.tally.digest(|fold| {
            fold.word(bitmap.into());
            ids(fold, tag_ids);
        });
        self.accept
    }
}

fn header(fold: &mut Fold, header: &MapHeader) {
    let box_ = &header.bounding_box;
    tally::degrees(fold, [box_.min_lat, box_.min_lon]);
    tally::degrees(fold, [box_.max_lat, box_.max_lon]);
    fold.words(&[
        header.header_size.into(),
        header.file_version.into(),
        header.file_size,
        header.creation_date,
        header.tile_size.into(),
        header.flags.into(),
        header.poi_tags.len() as u64,
        header.way_tags.len() as u64,
        header.num_zoom_intervals.into(),
    ]);
}

fn interval(fold: &mut Fold, interval: &ZoomInterval) {
    let zooms = [interval.base_zoom_level, interval.min_zoom_level, interval.max_zoom_level];
    fold.words(&zooms.map(u64::from));
    fold.words(&[interval.sub_file_start, interval.sub_file_size]);
}

/// What collecting tells of a tile: its counts and its zoom table.
fn collected(tile: &Tile, _: &MapHeader, tally: &mut Tally) {
    tally.points += tile.pois.len() as u64;
    tally.ways += tile.ways.len() as u64;
    tally.digest(|fold| {
        fold.words(&[tile.first_way_offset, tile.zoom_table.len()].map(|n| n as u64));
        for &(points, ways) in &tile.zoom_table {
            fold.words(&[points as u64, ways as u64]);
        }
    });
}

/// The tile with all that is in it.
fn fetched(tile: &Tile, header: &MapHeader, tally: &mut Tally) {
    collected(tile, header, tally);
    for point in &tile.pois {
        tally.digest(|fold| fetched_point(fold, point, &header.poi_tags));
    }
    for way in &tile.ways {
        tally.blocks += way.coordinate_blocks.len() as u64;
        let lengths = way.coordinate_blocks.iter().map(|block| block.coordinates.len() as u64);
        tally.nodes += lengths.sum::<u64>();
        tally.digest(|fold| fetched_way(fold, way, &header.way_tags));
    }
}

fn fetched_point(fold: &mut Fold, point: &POI, table: &[String]) {
    tally::degrees(fold, pair(&point.position_offset));
    fold.word(point.layer as u64);
    ids(fold, &point.tag_ids);
    let others = [&point.name, &point.house_number, &None];
    texts(fold, &point.tag_ids, table, others, &point.tags);
    tally::number(fold, point.elevation.map(i64::from));
}

fn fetched_way(fold: &mut Fold, way: &Way, table: &[String]) {
    fold.words(&[way.sub_tile_bitmap.into(), way.layer as u64, way.double_delta_encoding.into()]);
    ids(fold, &way.tag_ids);
    let others = [&way.name, &way.house_number, &way.reference];
    texts(fold, &way.tag_ids, table, others, &way.tags);
    label(fold, &way.label_position);
    for block in &way.coordinate_blocks {
        tally::degrees(fold, pair(&block.initial_position));
        nodes(fold, &block.coordinates);
    }
}

/// The names of the tags and the other texts, and then of each of them the tag.
fn texts(
    fold: &mut Fold,
    ids: &[usize],
    table: &[String],
    others: [&Option<String>; 3],
    tags: &Option<Vec<Tag>>,
) {
    ids.iter().for_each(|&id| tally::text(fold, Some(table[id].as_bytes())));
    others.iter().for_each(|text| tally::text(fold, text.as_deref().map(str::as_bytes)));
    for tag in tags.iter().flatten() {
        let lengths = [tag.key.len(), tag.value.len()].map(|length| length as u64);
        fold.words(&lengths);
        fold.words(&[tag.key_code, tag.value_code].map(|code| code as u64));
    }
}

fn nodes(fold: &mut Fold, nodes: &[LatLong]) {
    fold.word(nodes.len() as u64);
    nodes.iter().for_each(|node| tally::degrees(fold, pair(node)));
}

fn label(fold: &mut Fold, label: &Option<LatLong>) {
    fold.word(label.is_some().into());
    tally::degrees(fold, pair(&label.unwrap_or_default()));
}

fn ids(fold: &mut Fold, ids: &[usize]) {
    tally::ids(fold, ids.iter().map(|&id| id as u64));
}

fn pair(position: &LatLong) -> [f64; 2] {
    [position.latitude, position.longitude]
}
