//! The order of refusals: sub file (8), grid (14), tile (8), entry (19), next entry (19), interval (13), then bytes
//! in file order (20 in the head).

use mapsforge_rs::grid::Grid;

use super::writer::{sub_file, Tile};
use super::{all, at, header, next_point, next_way, Address, Maps};
use crate::maps::writer::{entry, Header, Interval, DEBUG, INDEX_SIGNATURE};

const REVERSED: Grid = Grid { x_min: 5, y_min: 0, x_max: 4, y_max: 0 };
/// 2^32 tiles.
const TOO_LARGE: Grid = Grid { x_min: 0, y_min: 0, x_max: 65535, y_max: 65535 };
/// Document 01's own.
const THREE_BY_TWO: Grid = Grid { x_min: 4, y_min: 2, x_max: 6, y_max: 3 };

pub fn add(maps: &mut Maps) {
    in_turn(maps);
    far_sub_files(maps);
    offsets(maps);
    reversed(maps);
    not_open(maps);
}

fn tile() -> Vec<u8> {
    Tile::of(&[next_point()], &[next_way()]).plain()
}

/// Two good sub files of six tiles and one that is reversed, with good and bad grids and tiles.
fn in_turn(maps: &mut Maps) {
    let tiles = vec![tile(); 6];
    let sub_files = [(); 3].map(|()| sub_file(false, &tiles));
    let mut asked = Vec::new();
    for sub_file in [0, 1, 2, 3, 255, 1 << 32, u64::MAX] {
        for grid in [THREE_BY_TWO, REVERSED, TOO_LARGE] {
            asked.extend([0, 5, 6, 1 << 32, u64::MAX].map(|tile| Address { sub_file, grid, tile }));
        }
    }
    maps.add(header(&[[0; 3], [9, 8, 8], [9, 9, 8]]).before_all(&sub_files), asked);
}

/// Sub files at the map's end, past it and at the end of all places, good and reversed.
fn far_sub_files(maps: &mut Maps) {
    let with_starts = |starts: &[u64]| {
        let interval = |&start: &u64| Interval { zooms: [0; 3], start, size: 0 };
        let good = starts.iter().map(interval);
        let bad = good.clone().map(|good| Interval { zooms: [9, 9, 8], ..good });
        Header { intervals: good.chain(bad).collect(), ..Header::tiny() }
    };
    let end = with_starts(&[0; 6]).length() + 20;
    let starts = [end - 5, end - 4, end, 1 << 63, u64::MAX - 4, u64::MAX];
    let asked = (0..12).flat_map(|sub_file| (0..2).map(move |tile| at(sub_file, tile, 2)));
    maps.add(with_starts(&starts).before(&[0; 20]), asked);
}

/// Entries that lead to the header, to each byte around the map's end, and far past it.
fn offsets(maps: &mut Maps) {
    let length = tile().len() as u64 + 12 * 5;
    let near = [0, length - 1, length, length + 1, 60, 61, 62];
    let far = [1 << 32, 1 << 38, (1 << 39) - 1];
    let entries = near.into_iter().chain(far).map(|offset| entry(true, offset));
    let index: Vec<u8> = entries.chain([entry(false, 59), entry(false, 57)]).flatten().collect();
    assert_eq!(index.len(), 12 * 5, "the tile is behind the index");
    maps.add(header(&[[0; 3]]).before_all(&[[index, tile()].concat()]), all(12));
}

/// "With a reversed interval `read_tile` may meet a short signature first; here 13 comes first."
fn reversed(maps: &mut Maps) {
    for zooms in [[9, 9, 8], [0, 255, 0], [0, 1, 0], [0, 128, 127]] {
        let header = Header { flags: DEBUG, ..header(&[zooms]) };
        for bytes in [&[][..], &[b' '; 31], &[b' '; 40]] {
            let sub_file = [&INDEX_SIGNATURE[..], &entry(false, 21), bytes].concat();
            maps.add(header.clone().before_all(&[sub_file]), all(1));
        }
    }
}

/// Maps that do not open, beside one that does.
fn not_open(maps: &mut Maps) {
    let map = header(&[[0; 3]]).before_all(&[sub_file(false, &[tile()])]);
    let version_2 = Header { version: 2, ..Header::tiny() }.bytes();
    for map in [&map, &b"no map"[..], &map[..40], &version_2] {
        maps.add(map.to_vec(), all(1));
    }
}
