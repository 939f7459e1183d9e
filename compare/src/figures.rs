//! Document 01's worked figures and the examples of its table, as far as the driver's commands reach.

mod calls;
mod plain;
mod tiles;

use std::fmt::Debug;

use mapsforge_rs::error::MapforgeError;
use mapsforge_rs::grid::{self, Grid};
use mapsforge_rs::io::{ByteRead, ByteSource};
use mapsforge_rs::types::MapFile;

use crate::answer::{digest, refused, Answer};
use crate::leaves::{answer, FILLED_TEXT};
use crate::maps::writer::{entry, Header, DEBUG};
use crate::maps::Run;
use crate::source::Source;

/// Whether all figures hold; each that does not is printed.
pub fn check() -> bool {
    let mut tally = Tally::default();
    numbers(&mut tally);
    coordinates(&mut tally);
    plain::check(&mut tally);
    texts(&mut tally);
    tags(&mut tally);
    values(&mut tally);
    source(&mut tally);
    grids(&mut tally);
    opening(&mut tally);
    index(&mut tally);
    tiles::check(&mut tally);
    println!("{} figures hold, {} do not", tally.good, tally.bad);
    tally.bad == 0
}

#[derive(Default)]
struct Tally {
    good: usize,
    bad: usize,
}

impl Tally {
    fn equal<T: PartialEq + Debug>(&mut self, name: &str, got: T, wanted: T) {
        if got == wanted {
            self.good += 1;
        } else {
            self.bad += 1;
            println!("{name}: {got:?}, not {wanted:?}");
        }
    }

    fn leaf(&mut self, name: &str, operation: u8, input: &[u8], wanted: &[u64]) {
        self.equal(name, answer(operation, input), wanted.to_vec());
    }
}

fn numbers(tally: &mut Tally) {
    tally.leaf("empty map", b'a', &[], &[1]);
    tally.leaf("unsigned 7F", b'u', &[0x7F], &[0, 127, 1]);
    tally.leaf("unsigned 80 01", b'u', &[0x80, 0x01], &[0, 128, 2]);
    tally.leaf("unsigned 81 80 40", b'u', &[0x81, 0x80, 0x40], &[0, 1048577, 3]);
    tally.leaf("signed 40", b's', &[0x40], &[0, 0, 0, 1]);
    tally.leaf("signed 41", b's', &[0x41], &[0, 1, 1, 1]);
    tally.leaf("signed C0 00", b's', &[0xC0, 0x00], &[0, 0, 64, 2]);
    tally.leaf("signed C0 40", b's', &[0xC0, 0x40], &[0, 1, 64, 2]);
    tally.leaf("nine bytes 80", b'u', &[0x80; 9], &[11]);
    tally.leaf("eight bytes 80", b'u', &[0x80; 8], &[1]);
}

fn coordinates(tally: &mut Tally) {
    let above = [0x81, 0x80, 0x80, 0x80, 0x80, 0x80, 0x80, 0x10];
    let limit = [0x80, 0x80, 0x80, 0x80, 0x80, 0x80, 0x80, 0x10];
    let degrees = (1_u64 << 53) as f64 / 1_000_000.0;
    tally.leaf("coordinate 2^53 + 1", b'm', &above, &[12]);
    tally.leaf("the same as a number", b's', &above, &[0, 0, (1 << 53) + 1, 8]);
    tally.leaf("coordinate 2^53", b'm', &limit, &[0, degrees.to_bits(), 8]);
    tally.leaf("coordinate 40", b'm', &[0x40], &[0, 0, 1]);
    tally.leaf("coordinate 41", b'm', &[0x41], &[0, (-0.000001_f64).to_bits(), 1]);
}

fn texts(tally: &mut Tally) {
    replaced(tally, b"a\xFFb", b"a\xEF\xBF\xBDb");
    replaced(tally, b"\xE2\x82A", b"\xEF\xBF\xBDA");
    tally.leaf("length 81 80 40", b't', &[0x81, 0x80, 0x40], &[9]);
    tally.leaf("length 80 80 80 80 10", b't', &[0x80, 0x80, 0x80, 0x80, 0x10], &[9]);
    let padded = [0x80, 0x80, 0x80, 0x80, 0x80, 0x00];
    tally.leaf("length 0 in six bytes", b't', &padded, &[0, 6, 0, 1, 0, digest(b""), 6]);
    tally.leaf("six bytes 80 as a length", b't', &[0x80; 6], &[1]);
    let size = 1 << 20;
    let longest = [&(size as u32).to_be_bytes(), &[0x80, 0x80, 0x40][..]].concat();
    let text = digest(&vec![0x61; size as usize]);
    tally.leaf("text of 2^20", FILLED_TEXT, &longest, &[0, 3, size, 1, size, text, size + 3]);
}

fn replaced(tally: &mut Tally, text: &[u8], wanted: &[u8]) {
    let size = text.len() as u64;
    let map = [&[text.len() as u8], text].concat();
    let values = [0, 1, size, 0, wanted.len() as u64, digest(wanted), size + 1];
    tally.leaf("replaced text", b't', &map, &values);
}

fn tags(tally: &mut Tally) {
    tally.leaf("hash of nothing", b'h', b"", &[0, 0]);
    tally.leaf("hash of a", b'h', b"a", &[0, 93217]);
    tally.leaf("hash of ab", b'h', b"ab", &[0, 2777121825]);
    tally.leaf("kind of a=%b=%s", b'k', b"a=%b=%s", &[0, u64::from(b'b')]);
    tally.leaf("kind of a=%", b'k', b"a=%", &[0, 0]);
    tally.leaf("split at the first =", b'g', b"a==", &[0, 1, 1, 93217, 61 * 961]);
    tally.leaf("no =", b'g', b"ab", &[0, 2, 0, 2777121825, 0]);
}

fn values(tally: &mut Tally) {
    tally.leaf("value b", b'v', b"b1", &[0, 0, 1, 1]);
    tally.leaf("value h, short", b'v', b"h1", &[1]);
    tally.leaf("value i", b'v', b"i12345", &[0, 0, 4, 4]);
    tally.leaf("value s", b'v', b"s\x01a", &[0, 1, 1, 2]);
    tally.leaf("value x", b'v', b"x1", &[0, 0, 0, 0]);
    let size = (1 << 20) + 1;
    let map = [&b"s\x81\x80\x40"[..], &vec![0; size as usize]].concat();
    tally.leaf("value s above the limit of texts", b'v', &map, &[0, 3, size, size + 3]);
}

/// "Seeking always succeeds, also past the end; a read that needs bytes past the end is refusal 1; a
/// read of 0 bytes succeeds."
fn source(tally: &mut Tally) {
    let mut source = Source::new(b"ab");
    let read = |source: &mut Source, size| -> Answer {
        let result = source.read_bytes(&mut vec![0; size]);
        result.map_or_else(|error| refused(&error), |()| vec![0, source.at()])
    };
    tally.equal("read past the end", read(&mut source, 3), vec![1]);
    tally.equal("place after a refusal", read(&mut source, 2), vec![0, 2]);
    source.seek_to(u64::MAX).expect("seeking succeeds");
    tally.equal("read nothing past the end", read(&mut source, 0), vec![0, u64::MAX]);
    tally.equal("read past all places", read(&mut source, 1), vec![1]);
}

/// What build.rs puts into tile.rs, on a map that is a header alone.
fn grids(tally: &mut Tally) {
    let header = header();
    let map = MapFile::from_source(Source::new(&header)).expect("a good header");
    let grid = Grid { x_min: 4, y_min: 2, x_max: 6, y_max: 3 };
    let index = |x, y| {
        grid::lend(grid);
        map.tile_index_of(0, x, y)
    };
    tally.equal("tile (6, 3)", index(6, 3), Some(5));
    tally.equal("tile (7, 3)", index(7, 3), None);
    tally.equal("tile (4, 2)", index(4, 2), Some(0));
    tally.equal("tiles", map.tile_count(0), Some(6));
    tally.equal("column of -190", MapFile::<Source>::get_tiles_column(-190.0, 0), 0);
    tally.equal("column of 0", MapFile::<Source>::get_tiles_column(0.0, 4), 8);
    tally.equal("longitude of 8", MapFile::<Source>::tilex2long(8, 4), 0.0);
    let error = map_without_tile(&header, grid);
    tally.equal("tile 6 of 3 x 2", error.map(|e| refused(&e)), Some(vec![8]));
}

fn map_without_tile(header: &[u8], grid: Grid) -> Option<MapforgeError> {
    let mut map = MapFile::from_source(Source::new(header)).expect("a good header");
    grid::lend(grid);
    map.tile_index_entry(0, 6).err()
}

/// A header with one zoom interval, whose sub file starts with the map.
fn header() -> Vec<u8> {
    with_sub_file(0).bytes()
}

fn with_sub_file(start: u64) -> Header {
    Header::tiny().with_interval([0; 3], start)
}

/// The table's examples of maps that do not open.
fn opening(tally: &mut Tally) {
    let mut example = |name: &str, map: &[u8], wanted: &[u64]| {
        tally.equal(name, Run::default().answer(b'M', map), wanted.to_vec());
    };
    let good = Header::tiny();
    example("empty map", &[], &[1]);
    example("20 bytes 00", &[0; 20], &[2]);
    example("version 2", &Header { version: 2, ..good.clone() }.bytes(), &[3, 2]);
    let bounds = [90_000_001, 0, 0, 0];
    example("min latitude 90000001", &Header { bounds, ..good.clone() }.bytes(), &[4]);
    example("good header, size 0", &Header { header_size: Some(0), ..good }.bytes(), &[5]);
    let debug = Header { flags: DEBUG, ..with_sub_file(header().len() as u64) };
    example("debug, 16 bytes 2B", &debug.before(&[0x2B; 16]), &[6]);
}

/// "entry 80 00 00 00 07, start 100: water, offset 7, absolute 107", and the added refusals.
fn index(tally: &mut Tally) {
    let mut map = with_sub_file(100).bytes();
    map.resize(100, 0);
    map.extend(entry(true, 7));
    let mut run = Run::default();
    tally.equal("a good header", run.answer(b'M', &map)[0], 0);
    // sub file 0, a grid of one tile, tile 0
    tally.equal("entry 80 00 00 00 07", run.answer(b'e', &[0; 32]), vec![0, 1, 7, 107]);
    let mut reversed = [0; 24];
    (reversed[11], reversed[19]) = (5, 4);
    tally.equal("x_min 5, x_max 4", run.answer(b'n', &reversed), vec![14]);
    tally.equal("column at zoom 64", run.answer(b'l', &[0, 0, 0, 0, 0, 0, 0, 0, 64]), vec![18]);
    tally.equal("longitude at zoom 64", run.answer(b'x', &[0, 0, 0, 0, 64]), vec![18]);
}
