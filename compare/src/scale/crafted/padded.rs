//! Tiles of several rows in which some numbers are not plain (Wish 6): each number alone, in a byte too many and as each of
//! the encodings at the limits of what is plain, and random numbers of random tiles.

use super::writer::{sub_file, Numbers, Tile};
use super::{all, header, rich, Maps};
use crate::maps::writer::{Header, DEBUG};
use crate::random::Random;

/// A table of three rows, so that streams at the lower zooms leave some of them out.
const ZOOMS: [u8; 3] = [11, 10, 12];
const SEED: u64 = 0xFADDED;
/// So many tiles with random numbers padded, in each of two maps.
const TILES: usize = 40;

/// "minus zero (40)", one byte beside it, and pairs at the limits: 0 to 63 in two bytes are padded, 64 is not; as an unsigned
/// number 0 to 127 in two bytes are padded, 128 is not.
const ENCODINGS: [&[u8]; 8] = [
    &[0x40],
    &[0x41],
    &[0xC0, 0x00],
    &[0xC0, 0x40],
    &[0xBF, 0x00],
    &[0x81, 0x40],
    &[0x80, 0x00],
    &[0x80, 0x01],
];

pub fn add(maps: &mut Maps) {
    let mut plain = Numbers::plain();
    rich::tile(false).bytes(&mut plain);
    let every = || 0..plain.written();
    for width in [2, 3] {
        let padded = |only| rich::tile(false).bytes(&mut Numbers::one_padded(only, width));
        add_map(maps, false, every().map(padded).collect());
    }
    for bytes in ENCODINGS {
        let replaced = |only| rich::tile(false).bytes(&mut Numbers::one_as(only, bytes));
        add_map(maps, false, every().map(replaced).collect());
    }
    let mut random = Random::new(SEED);
    for debug in [false, true] {
        let padded = |_| {
            let tile = Tile { debug, ..rich::tile(debug) };
            let one_in = [2, 8, 40, 120][random.below(4)];
            tile.bytes(&mut Numbers::some_padded(one_in, random.next() | 1))
        };
        add_map(maps, debug, (0..TILES).map(padded).collect());
    }
}

fn add_map(maps: &mut Maps, debug: bool, tiles: Vec<Vec<u8>>) {
    let header = Header { flags: if debug { DEBUG } else { 0 }, ..header(&[ZOOMS]) };
    maps.add(header.before_all(&[sub_file(debug, &tiles)]), all(tiles.len()));
}
