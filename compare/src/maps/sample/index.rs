//! Grids, the tiles in them, and their index entries.

use mapsforge_rs::grid::Grid;

use super::{rich_debug_map, Records};
use crate::maps::writer::{entry, Header, Interval, DEBUG, INDEX_SIGNATURE};
use crate::random::{repeat, Random};

const MIN: i32 = i32::MIN;
const MAX: i32 = i32::MAX;
const SEED: u64 = 0x1DE5;

const ONE: Grid = grid(0, 0, 0, 0);
/// Document 01's own.
const THREE_BY_TWO: Grid = grid(4, 2, 6, 3);
/// 65535 columns and 65537 rows: 2^32 - 1 tiles.
const LARGEST: Grid = grid(0, 0, 65534, 65536);
const REVERSED: Grid = grid(5, 0, 4, 0);

const fn grid(x_min: i32, y_min: i32, x_max: i32, y_max: i32) -> Grid {
    Grid { x_min, y_min, x_max, y_max }
}

const GRIDS: &[Grid] = &[
    ONE,
    THREE_BY_TWO,
    LARGEST,
    grid(-65534, -65536, 0, 0),
    grid(-32768, -32768, 32766, 32768),
    // good: around 2^31 columns, rows and tiles
    grid(0, 0, MAX - 1, 0),
    grid(0, 0, MAX, 0),
    grid(-1, 0, MAX, 0),
    grid(0, 0, MAX - 1, 1),
    grid(0, -1, 0, MAX),
    grid(0, 0, 0, MAX - 1),
    grid(-1, 5, 0, MAX),
    grid(0, 0, 46340, 46340),
    // good: the ends of i32
    grid(MIN, 0, MAX - 1, 0),
    grid(MIN + 1, 0, MAX, 0),
    grid(7, MIN, 7, MAX - 1),
    grid(MIN, MIN, MIN, MIN),
    grid(MAX, MAX, MAX, MAX),
    grid(MAX - 2, MIN, MAX, MIN + 1),
    // good: below and across 0
    grid(-3, -2, -1, -1),
    grid(-1, -1, 1, 0),
    // 2^32 tiles, and more than 64 bits count
    grid(0, 0, 65535, 65535),
    grid(MIN, 0, MAX, 0),
    grid(0, MIN, 0, MAX),
    grid(0, 0, MAX, 1),
    grid(MIN, MIN, MAX, MAX),
    grid(MIN, MIN, MAX, -1),
    // reversed, also in both directions
    REVERSED,
    grid(0, 5, 0, 4),
    grid(5, 5, 4, 4),
    grid(0, 0, -1, 0),
    grid(MAX, 0, MIN, 0),
    grid(0, MAX, 0, MIN),
    grid(MAX, MAX, MIN, MIN),
];

pub fn add(records: &mut Records) {
    records.map(&many_starts());
    counts(records);
    positions(records);
    around_2_31(records);
    entries(records);
    far_entries(records);
    cut_entries(records);
    worked_entry(records);
    debug_entries(records);
    not_open(records);
    random_tiles(records);
}

/// The number of the map's sub files, the last of which ends with the map's last bytes.
const SUB_FILES: u64 = 17;

/// The entries of a 3 x 2 grid with and without water, the ends of the offset among them.
fn six_entries() -> Vec<u8> {
    let last = (1 << 39) - 1;
    [(false, 30), (true, 30), (false, last), (true, last), (false, 0), (true, 1 << 38)]
        .map(|(water, offset)| entry(water, offset))
        .concat()
}

/// A map of six entries, with sub files that start at all sorts of places.
fn many_starts() -> Vec<u8> {
    let header = with_starts(&[0; SUB_FILES as usize]);
    let start = header.length();
    let end = start + 30;
    let five_all = 5 * u64::from(u32::MAX);
    let starts: [u64; SUB_FILES as usize] = [
        start,
        0,
        start + 5,
        end - 4,
        end - 3,
        end - 2,
        end - 1,
        end,
        end + 1,
        1 << 63,
        u64::MAX,
        u64::MAX - 4,
        u64::MAX - 5,
        // the last entry of the largest grid is at the last place, at its end, and one past it
        u64::MAX - five_all,
        u64::MAX - five_all + 5,
        u64::MAX - five_all + 6,
        end - 5,
    ];
    with_starts(&starts).before(&six_entries())
}

/// Zooms are of no account here, also those above 63.
fn with_starts(starts: &[u64]) -> Header {
    let interval = |&start: &u64| Interval { zooms: [255, 0, 0], start, size: 0 };
    Header { intervals: starts.iter().map(interval).collect(), ..Header::tiny() }
}

/// A missing sub file comes before a bad grid.
fn counts(records: &mut Records) {
    for &grid in GRIDS {
        for sub_file in [0, SUB_FILES - 1, SUB_FILES, u64::MAX] {
            records.tile_count(sub_file, grid);
        }
    }
}

/// Each corner of each grid and the places around it, and the ends of i32.
fn positions(records: &mut Records) {
    for &grid in GRIDS {
        for (x, y) in around(&grid) {
            records.tile_index(0, grid, x, y);
        }
        records.tile_index(SUB_FILES, grid, grid.x_min, grid.y_min);
    }
    for sub_file in [SUB_FILES - 1, SUB_FILES, 1 << 32, u64::MAX] {
        records.tile_index(sub_file, THREE_BY_TWO, 6, 3);
        records.tile_index(sub_file, REVERSED, 5, 0);
    }
    for y in 1..=4 {
        (3..=7).for_each(|x| records.tile_index(0, THREE_BY_TWO, x, y));
    }
}

/// The corners, one step outside each side at two of them, and far outside.
fn around(grid: &Grid) -> Vec<(i32, i32)> {
    let Grid { x_min, y_min, x_max, y_max } = *grid;
    let corners = [(x_min, y_min), (x_max, y_min), (x_min, y_max), (x_max, y_max)];
    let outside = [
        (x_min.saturating_sub(1), y_min),
        (x_max.saturating_add(1), y_max),
        (x_min, y_min.saturating_sub(1)),
        (x_max, y_max.saturating_add(1)),
    ];
    let mut all = [&corners[..], &outside, &[(MIN, MIN), (MAX, MAX), (MIN, MAX), (0, 0)]].concat();
    all.sort_unstable();
    all.dedup();
    all
}

/// The Rust's numbers end at 2^31 - 1: 46341 columns, so row 46340 holds it.
fn around_2_31(records: &mut Records) {
    let grid = grid(0, 0, 46340, 46340);
    let row = |index: i64| ((index % 46341) as i32, (index / 46341) as i32);
    for index in i64::from(MAX) - 1..=i64::from(MAX) + 1 {
        let (x, y) = row(index);
        records.tile_index(0, grid, x, y);
    }
}

/// Every tile of the grid and past it, in each order of refusals: sub file, grid, tile, entry.
fn entries(records: &mut Records) {
    (0..=7).for_each(|tile| records.entry(0, THREE_BY_TWO, tile));
    (0..=1).for_each(|tile| records.entry(1, ONE, tile));
    (0..=5).for_each(|tile| records.entry(2, THREE_BY_TWO, tile));
    let far = [1 << 32, 1 << 63, u64::MAX];
    for sub_file in [0, 8, 10, SUB_FILES - 1, SUB_FILES, 1 << 32, u64::MAX] {
        for grid in [ONE, THREE_BY_TWO, REVERSED] {
            for tile in [0, 1, 5, 6].into_iter().chain(far) {
                records.entry(sub_file, grid, tile);
            }
        }
    }
    for &grid in GRIDS {
        records.entry(0, grid, 0);
    }
}

/// Entries behind the last place, or ending behind it.
fn far_entries(records: &mut Records) {
    let all = u64::from(u32::MAX);
    for sub_file in [0, 9, 10, 11, 12, 13, 14, 15] {
        for tile in [0, 1, 2, all - 2, all - 1, all, all + 1] {
            records.entry(sub_file, LARGEST, tile);
        }
    }
}

/// Entries that the map's end cuts off by 0 to 5 bytes, by their place or by a shorter map.
fn cut_entries(records: &mut Records) {
    for sub_file in 3..=8 {
        (0..=1).for_each(|tile| records.entry(sub_file, ONE, tile));
    }
    records.entry(SUB_FILES - 1, ONE, 0);
    records.entry(SUB_FILES - 1, THREE_BY_TWO, 1);
    let map = many_starts();
    for cut in 1..=6 {
        records.map(&map[..map.len() - cut]);
        (4..=5).for_each(|tile| records.entry(0, THREE_BY_TWO, tile));
    }
}

/// "entry 80 00 00 00 07, start 100: water, offset 7, absolute 107."
fn worked_entry(records: &mut Records) {
    let mut map = with_starts(&[100]).bytes();
    map.resize(100, 0);
    map.extend(entry(true, 7));
    records.map(&map);
    records.entry(0, ONE, 0);
}

/// With the debug flag the entries are behind the signature.
fn debug_entries(records: &mut Records) {
    let debug = |starts: &[u64]| Header { flags: DEBUG, ..with_starts(starts) };
    let start = debug(&[0]).length();
    let map = debug(&[start]).before(&[&INDEX_SIGNATURE[..], &six_entries()].concat());
    records.map(&map);
    for sub_file in [0, 1] {
        records.tile_count(sub_file, THREE_BY_TWO);
        (0..=6).for_each(|tile| records.entry(sub_file, THREE_BY_TWO, tile));
    }
    for cut in [1, 5, 30] {
        records.map(&map[..map.len() - cut]);
        (0..=6).for_each(|tile| records.entry(0, THREE_BY_TWO, tile));
    }
    records.map(&rich_debug_map());
    for sub_file in 0..=2 {
        (0..=1).for_each(|tile| records.entry(sub_file, ONE, tile));
    }
}

/// Nothing is said of a map that does not open, whatever is asked.
fn not_open(records: &mut Records) {
    records.map(&Header { header_size: Some(0), ..with_starts(&[0]) }.bytes());
    for grid in [ONE, REVERSED] {
        records.tile_count(0, grid);
        records.tile_index(0, grid, 0, 0);
        records.entry(0, grid, 0);
    }
}

/// Small grids anywhere, with positions in and around them.
fn random_tiles(records: &mut Records) {
    let mut random = Random::new(SEED);
    records.map(&many_starts());
    repeat(60, || {
        let (x, y) = (random.next() as i32 >> 1, random.next() as i32 >> 1);
        let (columns, rows) = (random.below(1 << 16) as i32, random.below(1 << 16) as i32);
        let grid = grid(x, y, x + columns, y + rows);
        let mut inside = |from: i32, count: i32| from + random.below(count as usize + 1) as i32;
        let (x, y) = (inside(x, columns), inside(y, rows));
        records.tile_count(0, grid);
        records.tile_index(0, grid, x, y);
        records.entry(0, grid, random.below(8) as u64);
    });
}
