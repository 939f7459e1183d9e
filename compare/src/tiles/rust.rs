//! The Rust's own answers about a tile. The caller has seen that the Rust does not part from document
//! 01 there.

use mapsforge_rs::types::{self, LatLong, MapFile, Tag, WayCoordinateBlock, POI};
use mapsforge_rs::visit::{PoiInfo, TileVisitor, WayInfo};

use super::delivery::{Delivery, Unread};
use super::feature::{Block, Collected, Head, Point, Position, TagText, Text, Texts, Tile, Way};
use super::Address;
use crate::answer::{refused, Answer};
use crate::differences::tile::Opened;
use crate::source::Source;

pub fn collect(file: &mut MapFile<Source>, address: &Address) -> Answer {
    read(file, address).map_or_else(|refusal| refusal, |tile| collected(&tile).answer())
}

pub fn fetch(file: &mut MapFile<Source>, address: &Address, k: usize) -> Answer {
    fetched(file, address).map_or_else(|refusal| refusal, |tile| tile.answer(k))
}

/// The collected tile with the texts of its features, or the refusal.
pub fn fetched(file: &mut MapFile<Source>, address: &Address) -> Result<Collected, Answer> {
    let tile = read(file, address)?;
    let texts_of_point = |point: &POI| {
        let others = [&point.name, &point.house_number, &None];
        texts(&file.header.poi_tags, &point.tag_ids, &point.tags, others)
    };
    let texts_of_way = |way: &types::Way| {
        let others = [&way.name, &way.house_number, &way.reference];
        texts(&file.header.way_tags, &way.tag_ids, &way.tags, others)
    };
    let of_points = tile.pois.iter().map(texts_of_point);
    let texts = of_points.chain(tile.ways.iter().map(texts_of_way)).collect();
    Ok(Collected { tile: collected(&tile), texts, signatures: Vec::new(), places: Vec::new() })
}

/// `visit_tile`: 0, sub file and water mark, or the refusal.
#[cfg(feature = "both")]
pub fn visit(
    file: &mut MapFile<Source>,
    address: &Address,
    zoom: u8,
    delivery: &mut impl Delivery,
) -> Answer {
    let (sub_file, tile) = (address.sub_file as usize, address.tile as usize);
    match file.visit_tile(sub_file, tile, zoom, &mut Visitor(delivery)) {
        Ok(end) => vec![0, end.sub_file as u64, u64::from(end.is_water)],
        Err(error) => refused(&error),
    }
}

/// `read_tile`. Counts that it may not be able to reserve it does not see: they lead to a refusal,
/// and `visit_tile`, which reserves nothing for them, gives the same one.
fn read(file: &mut MapFile<Source>, address: &Address) -> Result<types::Tile, Answer> {
    let (sub_file, tile) = (address.sub_file as usize, address.tile as usize);
    let result = if Opened::of(file).has_fair_counts(address) {
        file.read_tile(sub_file, tile)
    } else {
        let visited = file.visit_tile(sub_file, tile, u8::MAX, &mut Visitor(&mut Unread));
        Err(visited.expect_err("more features than bytes"))
    };
    result.map_err(|error| refused(&error))
}

fn collected(tile: &types::Tile) -> Tile {
    Tile {
        signature: text(tile.debug_signature.as_deref()),
        table: tile.zoom_table.iter().map(|&(points, ways)| [points, ways].map(word)).collect(),
        first_way: word(tile.first_way_offset),
        points: tile.pois.iter().map(collected_point).collect(),
        ways: tile.ways.iter().map(collected_way).collect(),
        exact: false,
        padded: None,
    }
}

fn collected_point(point: &POI) -> Point {
    Point {
        position: position(&point.position_offset),
        layer: layer(point.layer),
        ids: ids(&point.tag_ids),
        name: text(point.name.as_deref()),
        house_number: text(point.house_number.as_deref()),
        elevation: point.elevation,
        signature: text(point.debug_signature.as_deref()),
        plain: None,
    }
}

fn collected_way(way: &types::Way) -> Way {
    Way {
        bitmap: way.sub_tile_bitmap,
        layer: layer(way.layer),
        ids: ids(&way.tag_ids),
        name: text(way.name.as_deref()),
        house_number: text(way.house_number.as_deref()),
        reference: text(way.reference.as_deref()),
        label: way.label_position.as_ref().map(position),
        double: way.double_delta_encoding,
        blocks: way.coordinate_blocks.iter().map(collected_block).collect(),
        signature: text(way.debug_signature.as_deref()),
        plain: None,
        head_plain: None,
    }
}

fn collected_block(block: &WayCoordinateBlock) -> Block {
    Block {
        initial: position(&block.initial_position),
        nodes: block.coordinates.iter().map(position).collect(),
    }
}

/// The texts of a feature, each with its tag. The Rust has the tags in one list.
fn texts(
    table: &[String],
    ids: &[usize],
    tags: &Option<Vec<Tag>>,
    others: [&Option<String>; 3],
) -> Texts {
    let mut tags = tags.iter().flatten();
    let mut next = |text: &String| {
        let tag = tags.next().expect("a tag for each text");
        let tag = [tag.key.len(), tag.value.len(), tag.key_code, tag.value_code].map(word);
        TagText { text: text.as_bytes().to_vec(), tag }
    };
    let of_ids = ids.iter().map(|&id| next(&table[id])).collect();
    let others = others.map(|text| text.as_ref().map(&mut next));
    assert!(tags.next().is_none(), "a text for each tag");
    Texts { of_ids, others }
}

/// The Rust's visitor, which hands on what it is shown.
struct Visitor<'a, D>(&'a mut D);

impl<D: Delivery> TileVisitor for Visitor<'_, D> {
    fn poi(&mut self, point: &PoiInfo) {
        self.0.point(Point {
            position: position(&point.position),
            layer: layer(point.layer),
            ids: ids(point.tag_ids),
            name: text(point.name),
            house_number: text(point.house_number),
            elevation: point.elevation,
            signature: None,
            plain: None,
        });
    }

    fn way(&mut self, way: &WayInfo) {
        self.0.way(Way {
            bitmap: way.sub_tile_bitmap,
            layer: layer(way.layer),
            ids: ids(way.tag_ids),
            name: text(way.name),
            house_number: text(way.house_number),
            reference: text(way.reference),
            label: way.label_position.as_ref().map(position),
            double: false,
            blocks: way.blocks.iter().map(|nodes| streamed_block(nodes)).collect(),
            signature: None,
            plain: None,
            head_plain: None,
        });
    }

    fn accept_way(&mut self, bitmap: u16, tag_ids: &[usize]) -> bool {
        self.0.head(Head { bitmap, ids: ids(tag_ids), layer: None, plain: None })
    }
}

fn streamed_block(nodes: &[LatLong]) -> Block {
    Block { nodes: nodes.iter().map(position).collect(), ..Block::default() }
}

fn position(position: &LatLong) -> Position {
    [position.latitude, position.longitude]
}

/// The layer + 5.
fn layer(layer: i8) -> u64 {
    u64::try_from(layer + 5).expect("four bits less 5")
}

fn ids(ids: &[usize]) -> Vec<u64> {
    ids.iter().copied().map(word).collect()
}

fn text(text: Option<&str>) -> Option<Text> {
    text.map(|text| text.as_bytes().to_vec())
}

fn word(number: usize) -> u64 {
    number as u64
}
