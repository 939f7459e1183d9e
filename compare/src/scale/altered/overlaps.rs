//! Maps whose ways lie over bytes that other calls read. Such a byte is one of a declined way, and not only of it.

use super::super::bases::Base;
use super::super::crafted::writer::{sub_file, Tile, Way};
use super::super::crafted::{at, header, next_point, next_way};
use crate::maps::writer::{entry, text, Header, Interval, DEBUG, INDEX_SIGNATURE, PROJECTION};
use crate::tiles::Address;

pub fn bases() -> Vec<Base> {
    vec![over_entry(), over_next_entry(), over_signature(), over_header()]
}

fn base(over: &str, map: Vec<u8>, tile: Address) -> Base {
    Base::of(format!("a way over {over}"), map, vec![tile])
}

/// A tile with a way of this name before another way.
fn named(name: &[u8], debug: bool) -> Vec<u8> {
    let way = Way { name: Some(name.to_vec()), ..next_way() };
    Tile { debug, ..Tile::of(&[next_point()], &[way, next_way()]) }.plain()
}

/// The sub file starts with the tile. An entry in the zeros of the name leads there.
fn over_entry() -> Base {
    let (tile, number) = over_entries();
    base("its tile's entry", header(&[[0; 3]]).before_all(&[tile]), at(0, number, number + 1))
}

/// The same, and the next entry is in the name too: it leads elsewhere.
fn over_next_entry() -> Base {
    let (mut tile, number) = over_entries();
    let size = entry(false, 0).len();
    let next = (number + 1) * size;
    tile[next..next + size].copy_from_slice(&entry(false, 1));
    base("the next tile's entry", header(&[[0; 3]]).before_all(&[tile]), at(0, number, number + 2))
}

/// The tile with a name of zeros, and the number of an entry in it.
fn over_entries() -> (Vec<u8>, usize) {
    let tile = named(&[0; 40], false);
    let zeros = tile.windows(40).position(|bytes| bytes == [0; 40]).expect("the name is there");
    let number = zeros.div_ceil(entry(false, 0).len()) + 1;
    (tile, number)
}

/// The second sub file starts in the name.
fn over_signature() -> Base {
    let tiles = sub_file(true, &[named(INDEX_SIGNATURE, true)]);
    let mut header = Header { flags: DEBUG, ..header(&[[0; 3], [1; 3]]) };
    let first = header.length();
    let size = INDEX_SIGNATURE.len();
    let name = tiles.windows(size).rposition(|bytes| bytes == INDEX_SIGNATURE);
    let second = first + name.expect("the name is there") as u64;
    (header.intervals[0].start, header.intervals[1].start) = (first, second);
    base("an index signature", header.before(&tiles), at(0, 0, 1))
}

/// The sub file is in the header's comment, up to where the name starts; the rest of the header is the name.
fn over_header() -> Base {
    const HASH: u8 = b'#';
    // behind the projection, which is empty, the flags and the comment's length
    let start = PROJECTION + 3;
    let interval = Interval { zooms: [0; 3], start: start as u64, size: 0 };
    let with_comment = |comment: &[u8]| Header {
        comment: Some(text(comment)),
        intervals: vec![interval],
        ..header(&[])
    };
    let name = vec![HASH; with_comment(&[]).bytes().len() - start];
    let tile = named(&name, false);
    let place = tile.windows(name.len()).position(|bytes| bytes == name).expect("it is there");
    let entry = entry(false, entry(false, 0).len() as u64);
    let comment = [&entry, &tile[..place]].concat();
    base("the header", with_comment(&comment).before(&tile[place + name.len()..]), at(0, 0, 1))
}
