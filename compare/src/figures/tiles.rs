//! Tiles: document 01's figures and its table's examples, and the format document's example of double
//! delta.

use mapsforge_rs::grid::{self, Grid};
use mapsforge_rs::types::MapFile;

use super::calls::Calls;
use super::Tally;
use crate::answer::{as_the_rust, Answer};
use crate::differences::tile::{Cause, Opened, Port};
use crate::leaves::sample::{signed, unsigned};
use crate::maps::open;
use crate::maps::writer::{entry, tags, text, Header, DEBUG, INDEX_SIGNATURE};
use crate::source::Source;
use crate::tiles::delivery::{Delivery, Unread};
use crate::tiles::{rust, Address};

/// A grid of one tile.
const ONE: Grid = Grid { x_min: 0, y_min: 0, x_max: 0, y_max: 0 };
const FIRST: Address = Address { sub_file: 0, grid: ONE, tile: 0 };

/// The size of an index of one entry.
const INDEX: u64 = 5;

/// The flags of a way's or point's name, and of double delta.
const NAME: u8 = 0x80;
const DOUBLE: u8 = 0x04;

pub fn check(tally: &mut Tally) {
    nodes(tally);
    refusals(tally);
    cut_off(tally);
    empty(tally);
    counts(tally);
    limits(tally);
    overlap(tally);
    calls(tally);
}

/// A map of one tile, with three tags of each table.
fn map(zooms: [u8; 3], tile: &[u8]) -> Vec<u8> {
    let three = tags(&[b"a", b"b", b"c"]);
    let header = Header { poi_tags: three.clone(), way_tags: three, ..Header::tiny() };
    header.with_interval(zooms, 0).before_all(&[[&entry(false, INDEX), tile].concat()])
}

/// A way with no field but perhaps a name, and with a block of these stored numbers.
fn way(flags: u8, name: &[u8], nodes: &[[i64; 2]]) -> Vec<u8> {
    let number = |&value: &i64| signed(value < 0, value.unsigned_abs());
    let stored: Vec<u8> = nodes.as_flattened().iter().flat_map(number).collect();
    let block = [&[1], unsigned(nodes.len() as u64).as_slice(), &stored].concat();
    let behind_size = [&[0xFF, 0xFF, 0x50, flags], name, &block].concat();
    [unsigned(behind_size.len() as u64), behind_size].concat()
}

/// A tile of one way.
fn with_way(flags: u8, nodes: &[[i64; 2]]) -> Vec<u8> {
    [&[0, 1, 0], way(flags, &[], nodes).as_slice()].concat()
}

/// The Rust's answer on the first tile, which must be the model's; where the Rust parts, the model's.
fn asked(
    map: &[u8],
    model: impl FnOnce(Opened) -> Port,
    rust: impl FnOnce(&mut MapFile<Source>) -> Answer,
) -> Answer {
    let answer = |mut file: MapFile<Source>| {
        let Port { answer, parting, .. } = model(Opened::of(&file));
        grid::lend(FIRST.grid);
        let Some(parting) = parting else {
            let known = as_the_rust(&answer);
            assert_eq!(rust(&mut file), known, "the Rust (left) and document 01 part");
            return answer;
        };
        // the Rust reads up to a bad number too: it is refused there, by 1, if the map ends there
        if parting.untouched && matches!(parting.cause, Cause::Number | Cause::Coordinate) {
            file.reader = Source::new(&file.reader.map()[..parting.place as usize]);
            assert_eq!(rust(&mut file), [1], "the Rust (left) does not come so far");
        }
        answer
    };
    open::with_map(map, answer).expect("the map opens")
}

fn collected_of(map: &[u8]) -> Answer {
    asked(map, |opened| opened.collect(&FIRST), |file| rust::collect(file, &FIRST))
}

fn collected(tile: &[u8]) -> Answer {
    collected_of(&map([0; 3], tile))
}

fn feature(map: &[u8], k: usize) -> Answer {
    asked(map, |opened| opened.fetch(&FIRST, k), |file| rust::fetch(file, &FIRST, k))
}

/// How the stream of the model ends.
fn streamed(map: &[u8], zoom: u8, delivery: &mut impl Delivery) -> Answer {
    let ended = open::with_map(map, |file| Opened::of(&file).stream(&FIRST, zoom, delivery).answer);
    ended.expect("the map opens")
}

/// "Stored latitudes of 1, 2, 3 degrees: single 1, 3, 6; double 1, 3, 8."
fn nodes(tally: &mut Tally) {
    let degrees = [1_000_000, 2_000_000, 3_000_000];
    tally.equal("single delta", latitudes(&degrees, false), vec![1.0, 3.0, 6.0]);
    tally.equal("double delta", latitudes(&degrees, true), vec![1.0, 3.0, 8.0]);
    // the example gives 52.11517, 52.115113, 52.115185, 52.115242, 52.11517
    let from_corner = latitudes(&[-8286, -57, 129, -15, -129], true);
    let microdegrees: Vec<f64> = from_corner.iter().map(|degrees| degrees * 1e6).collect();
    let rounded: Vec<f64> = microdegrees.iter().map(|number| number.round()).collect();
    let wanted = [52_115_170, 52_115_113, 52_115_185, 52_115_242, 52_115_170];
    let wanted = wanted.map(|latitude| f64::from(latitude - 52_123_456));
    tally.equal("the format document's example", rounded, wanted.to_vec());
}

fn latitudes(stored: &[i64], double: bool) -> Vec<f64> {
    let nodes: Vec<[i64; 2]> = stored.iter().map(|&latitude| [latitude, 0]).collect();
    let map = map([0; 3], &with_way(if double { DOUBLE } else { 0 }, &nodes));
    grid::lend(FIRST.grid);
    let mut file = MapFile::from_source(Source::new(&map)).expect("a good header");
    let tile = file.read_tile(0, 0).expect("a good tile");
    tile.ways[0].coordinate_blocks[0].coordinates.iter().map(|node| node.latitude).collect()
}

/// The table's rows 7 to 14 and 17.
fn refusals(tally: &mut Tally) {
    let mut tile = |name: &str, tile: &[u8], wanted: &[u64]| {
        tally.equal(name, collected(tile), wanted.to_vec());
    };
    tile("id 3, three tags", &[1, 0, 0, 0, 0, 0x51, 3, 0], &[7, 3]);
    tile("text length 81 80 40", &[1, 0, 0, 0, 0, 0x50, 0x80, 0x81, 0x80, 0x40], &[9]);
    tile(
        "text length 80 80 80 80 10",
        &[1, 0, 0, 0, 0, 0x50, 0x80, 0x80, 0x80, 0x80, 0x80, 0x10],
        &[9],
    );
    tile("node count 81 80 40", &[0, 1, 0, 8, 0, 0, 0x50, 0, 1, 0x81, 0x80, 0x40], &[10]);
    tile("nine bytes 80 as a count", &[0x80; 9], &[11]);
    let above = [1, 0, 0, 0x81, 0x80, 0x80, 0x80, 0x80, 0x80, 0x80, 0x10];
    tile("latitude 81 80 80 80 80 80 80 10", &above, &[12]);
    tally.equal("zooms 9 and 8", collected_of(&map([9, 9, 8], &[])), vec![13]);
    let empty = map([0; 3], &[0, 0, 0]);
    tally.equal("feature 0 of no features", feature(&empty, 0), vec![17]);
}

/// Rows 19 and 20, which joined the table: the map ends in a tile's entry or in its head.
fn cut_off(tally: &mut Tally) {
    let mut refused = |name: &str, map: &[u8], number: u64, place: usize| {
        tally.equal(name, collected_of(map), vec![number, place as u64]);
    };
    let whole = map([0; 3], &[0]);
    let tile = whole.len() - 1;
    let start = tile - INDEX as usize;
    refused("no entry", &whole[..start], 19, start);
    refused("four bytes of an entry", &whole[..start + 4], 19, start);
    refused("no tile", &whole[..tile], 20, tile);
    for tile in [&[0][..], &[0x80], &[0, 0x80, 0x80], &[0, 0], &[0, 0, 0x80]] {
        let map = map([0; 3], tile);
        refused(&format!("head {tile:02x?}"), &map, 20, map.len());
    }
    let header = Header { flags: DEBUG, ..Header::tiny() }.with_interval([0; 3], 0);
    let index = [&INDEX_SIGNATURE[..], &entry(false, 21)].concat();
    let tile = header.length() as usize + index.len();
    for (there, number, place) in [(31, 20, tile), (32, 20, tile + 32)] {
        let sub_file = [&index[..], &vec![b' '; there]].concat();
        let map = header.clone().before_all(&[sub_file]);
        refused(&format!("{there} bytes of a signature"), &map, number, place);
    }
    // behind the map's end a number's first byte is missing
    let far = [&Header::tiny().with_interval([0; 3], 88).bytes()[..], &entry(false, 1000)].concat();
    refused("a tile behind the map", &far, 20, 1088);
    let map = Header::tiny().with_interval([0; 3], u64::MAX).bytes();
    let second = Address { grid: Grid { x_max: 2, y_max: 1, ..ONE }, tile: 1, ..FIRST };
    let past = open::with_map(&map, |file| Opened::of(&file).entry(&second));
    tally.equal("an entry past all places", past, Ok(vec![19, u64::MAX]));
}

/// Wish 5: a tile that is marked empty is answered as the tile 00 00 00 is, but for its signature; the next entry is
/// refused behind the tile's own, and a reversed interval behind both.
fn empty(tally: &mut Tally) {
    let no_features = collected(&[0; 3]);
    let last = map([0; 3], &[]);
    tally.equal("the last tile at the sub file's size", collected_of(&last), no_features.clone());
    tally.equal("feature 0 of an empty tile", feature(&last, 0), vec![17]);
    let header = |zooms, flags| Header { flags, ..Header::tiny() }.with_interval(zooms, 0);
    let debug = [&INDEX_SIGNATURE[..], &entry(false, 21)].concat();
    let debug = header([0; 3], DEBUG).before_all(&[debug]);
    tally.equal("the same in a debug map", collected_of(&debug), no_features.clone());
    // the first of two tiles
    let two = |zooms, own: [u8; 5], next: &[u8]| {
        header(zooms, 0).before_all(&[[&own[..], next, &[1, 0, 0, 0, 0, 0x50, 0]].concat()])
    };
    let first = Address { grid: Grid { x_max: 1, ..ONE }, ..FIRST };
    let ask = |map: &[u8]| open::with_map(map, |file| Opened::of(&file).collect(&first).answer);
    let (own, next) = (entry(true, 10), entry(false, 10));
    let marked = two([0; 3], own, &next);
    tally.equal("the offset of the next tile", ask(&marked), Ok(no_features));
    let ended =
        open::with_map(&marked, |file| Opened::of(&file).stream(&first, 0, &mut Unread).answer);
    tally.equal("its own water mark", ended, Ok(vec![0, 0, 1]));
    let reversed = two([9, 9, 8], own, &next);
    tally.equal("zooms 9 and 8 of an empty tile", ask(&reversed), Ok(vec![13]));
    for map in [&marked, &reversed] {
        let start = header([0; 3], 0).length() as usize;
        let cut = ask(&map[..start + 9]);
        tally.equal("four bytes of the next entry", cut, Ok(vec![19, start as u64 + 5]));
    }
}

/// Counts that cannot be reserved, and sums past 64 bits: 1, unless a feature is refused earlier.
fn counts(tally: &mut Tally) {
    let most = unsigned((1 << 63) - 1);
    let points = [most.as_slice(), &[0, 0, 0, 0, 0x50, 0]].concat();
    tally.equal("2^63 - 1 points", collected(&points), vec![1]);
    let refused = [points.as_slice(), &[0, 0, 0x51, 4]].concat();
    tally.equal("the second of them refused", collected(&refused), vec![7, 4]);
    let row = [most.as_slice(), &[0]].concat();
    let sum = [row.as_slice(), &row, &row, &[0, 0, 0, 0x51, 4]].concat();
    let map = map([0, 0, 2], &sum);
    tally.equal("three such rows", collected_of(&map), vec![7, 4]);
    tally.equal("the same, streamed", streamed(&map, 2, &mut Unread), vec![7, 4]);
}

/// "Text of 2^20 bytes and block of 2^20 nodes pass."
fn limits(tally: &mut Tally) {
    let most = 1 << 20;
    let name = text(&vec![b'a'; most]);
    let point = [&[0, 0, 0x50, NAME], name.as_slice()].concat();
    let head = [&[1, 1], unsigned(point.len() as u64).as_slice()].concat();
    let tile = [head, point, way(NAME, &name, &vec![[1, -1]; most])].concat();
    let map = map([0; 3], &tile);
    tally.equal(
        "text of 2^20",
        feature(&map, 0)[..8].to_vec(),
        vec![0, 1, 0, 0, 5, 0, 1, most as u64],
    );
    let way = feature(&map, 1);
    tally.equal(
        "block of 2^20 nodes",
        way[way.len() - 6..way.len() - 3].to_vec(),
        vec![0, 1, most as u64],
    );
}

/// The way lies over the point: the tile 01 01 00 05 00 50 80 01 00.
fn overlap(tally: &mut Tally) {
    let map = map([0; 3], &[0x01, 0x01, 0x00, 0x05, 0x00, 0x50, 0x80, 0x01, 0x00]);
    let found = (collected_of(&map)[..5].to_vec(), is_exact(&map));
    tally.equal("a way over a point", found, (vec![0, 1, 0, 1, 1], true));
}

/// Whether every stored size is the decoded length, which the Rust does not say.
fn is_exact(map: &[u8]) -> bool {
    let tile = open::with_map(map, |file| Opened::of(&file).fetched(&FIRST).0);
    tile.expect("the map opens").is_ok_and(|collected| collected.tile.exact)
}

/// The table's rows 15 and 16: "2 nodes, list of 1" and "accept with no way waiting".
fn calls(tally: &mut Tally) {
    let mut calls = Calls::default();
    let map = map([0; 3], &with_way(0, &[[0, 0], [1, 1]]));
    let ended = streamed(&map, u8::MAX, &mut calls);
    let wanted = "\
a 128 128 128 16 128 128 128
d 16
n 2 65535 5
n 16
a 0 0 0 15 1 2 2 128 128 128
a 0 2 2 15 1 2 2 128 128 128
a 1 1 2 15 1 2 2 128 128 128
a 1 2 1 15 1 2 2 128 128 128
a 1 2 2 0 1 2 127 126 126
d 16
a 128 128 128 16 128 128 128
d 16
n 0 0 0
a 128 128 128 16 128 128 128
d 16
n 0 0 0
";
    tally.equal("calls on a way of 2 nodes", calls.end(&ended), wanted.to_string());
}
