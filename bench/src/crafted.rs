//! Maps that are made here, each of one tile. In some of them ways carry a tag 15 times: they are slow for a reader that looks
//! for a tag's letter in the header each time, by a walk over all names before it, or through a name that is long. Two have
//! many features: they are slow for a reader that walks to each one.

use crate::work::Work;

/// The maps that both sides read. The Rust looks through a name at each of its ids, so `long-name` has a single way.
pub const BOTH: [&str; 2] = ["crafted/many-tags", "crafted/long-name"];
/// A map of a megabyte with the long name, for ours alone.
pub const OURS: &str = "crafted/long-name-full";

/// A tile of features that have no tags, and one of ten times as many, for both sides.
pub const FEW_AND_MANY: [&str; 2] = ["crafted/features-1000", "crafted/features-10000"];

/// What is done on those with tags.
pub const WORKS: [Work; 2] = [Work::Decline, Work::Collect];
/// What is done on those with many features.
pub const FETCHED: [Work; 2] = [Work::Collect, Work::Fetch];
/// The second of them may take so many times the instructions of the first.
pub const MOST_GROWTH: u64 = 12;
/// Ours may take so many times as long as the Rust on those with tags. The others are for the growth alone: a feature without
/// tags is cheap for the Rust, and ours writes as many words for it as for any other.
pub const MOST: f64 = 2.0;

const TAGS: u64 = 65_535;
const LONG_NAME: usize = 1 << 19;
const WAYS_WITH_MANY_TAGS: u64 = 19_273;
const ONE_WAY: u64 = 1;
const WAYS_OF_A_MEGABYTE: u64 = 24_960;

/// The maps that both sides read, and what they do there.
pub fn both() -> impl Iterator<Item = (&'static str, [Work; 2])> {
    let tags = BOTH.into_iter().map(|name| (name, WORKS));
    tags.chain(FEW_AND_MANY.into_iter().map(|name| (name, FETCHED)))
}

/// The map of such a name.
pub fn map(name: &str) -> Option<Vec<u8>> {
    match name {
        "crafted/many-tags" => Some(many_tags()),
        "crafted/long-name" => Some(long_name(ONE_WAY)),
        OURS => Some(long_name(WAYS_OF_A_MEGABYTE)),
        "crafted/features-1000" => Some(features(500)),
        "crafted/features-10000" => Some(features(5000)),
        _ => None,
    }
}

/// As many tags as a map may have, of empty names; the ways carry the last one.
fn many_tags() -> Vec<u8> {
    let tags: Vec<u8> = (0..TAGS).flat_map(|_| text(b"")).collect();
    with_tags(TAGS, &tags, &tile(WAYS_WITH_MANY_TAGS, TAGS - 1))
}

/// One tag whose name has half a megabyte.
fn long_name(ways: u64) -> Vec<u8> {
    with_tags(1, &text(&vec![b'n'; LONG_NAME]), &tile(ways, 0))
}

/// So many points, and as many ways of two nodes.
fn features(each: u64) -> Vec<u8> {
    let points = [1, 1, 0x50, 0].repeat(each as usize);
    let behind = [0xFF, 0xFF, 0x50, 0, 1, 2, 1, 1, 2, 2];
    let way = [&[behind.len() as u8][..], &behind].concat();
    let head = [number(each), number(each), number(points.len() as u64)].concat();
    with_tags(0, &[], &[head, points, way.repeat(each as usize)].concat())
}

/// A map of one sub file with one tile, at zoom 0.
fn with_tags(count: u64, tags: &[u8], tile: &[u8]) -> Vec<u8> {
    const INDEX: u64 = 5;
    let sub_file = [&INDEX.to_be_bytes()[3..], tile].concat();
    let table = |start: u64| {
        let size = sub_file.len() as u64;
        [&[1, 0, 0, 0], &start.to_be_bytes()[..], &size.to_be_bytes()].concat()
    };
    // tile size, an empty projection, no flags and no tags of points
    let front = [0, 0, 0, 0, 0, 0].to_vec();
    let tags = [&front, &(count as u16).to_be_bytes()[..], tags].concat();
    // version 5, and no size, date and box
    let fields = [&5u32.to_be_bytes()[..], &[0; 32], &tags].concat();
    let magic = b"mapsforge binary OSM";
    let header_size = fields.len() + table(0).len();
    let start = (magic.len() + 4 + header_size) as u64;
    let header_size = (header_size as u32).to_be_bytes();
    [&magic[..], &header_size, &fields, &table(start), &sub_file].concat()
}

/// So many ways at the one zoom, right behind the head.
fn tile(ways: u64, id: u64) -> Vec<u8> {
    let head = [number(0), number(ways), number(0)].concat();
    let way = way(id);
    [head, way.repeat(ways as usize)].concat()
}

/// A way without nodes that carries a tag 15 times.
fn way(id: u64) -> Vec<u8> {
    let ids: Vec<u8> = (0..15).flat_map(|_| number(id)).collect();
    let behind = [&[0xFF, 0xFF, 0x5F][..], &ids, &[0, 0]].concat();
    [number(behind.len() as u64), behind].concat()
}

fn text(bytes: &[u8]) -> Vec<u8> {
    [&number(bytes.len() as u64), bytes].concat()
}

/// A number in groups of 7 bits, the lowest first.
fn number(mut value: u64) -> Vec<u8> {
    let mut bytes = Vec::new();
    while value >= 128 {
        bytes.push((value % 128) as u8 | 128);
        value /= 128;
    }
    bytes.push(value as u8);
    bytes
}
