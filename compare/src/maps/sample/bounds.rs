//! Bounding boxes: each of the ten conditions at its limit and one past it.

use super::Records;
use crate::maps::writer::Header;
use crate::random::{repeat, Random};

/// 90 and 180 degrees.
const LAT: i32 = 90_000_000;
const LON: i32 = 180_000_000;
const SEED: u64 = 0xB0C5;

pub fn add(records: &mut Records) {
    for (low, high) in [(0, LAT), (1, LON)] {
        for sides in pairs(high) {
            add_box(records, placed(low, sides));
        }
    }
    for bounds in WHOLE {
        add_box(records, bounds);
    }
    random_boxes(records);
}

fn add_box(records: &mut Records, bounds: [i32; 4]) {
    records.map(&Header { bounds, ..Header::tiny() }.bytes());
}

/// The lower and upper side of one direction, the other direction being 0.
fn placed(low: usize, [min, max]: [i32; 2]) -> [i32; 4] {
    let mut bounds = [0; 4];
    bounds[low] = min;
    bounds[low + 2] = max;
    bounds
}

/// Good and bad pairs around a limit; most bad ones break one condition alone.
fn pairs(limit: i32) -> [[i32; 2]; 20] {
    let past = limit + 1;
    [
        [-limit, 0],
        [-past, 0],
        [limit, limit],
        [past, past],
        [past, limit],
        [past, 0],
        [-limit, -limit],
        [-past, -past],
        [-limit, -past],
        [0, -past],
        [0, limit],
        [0, past],
        [-limit, limit],
        [5, 5],
        [5, 6],
        [6, 5],
        [-5, -6],
        [1, -1],
        [i32::MIN, i32::MAX],
        [i32::MAX, i32::MIN],
    ]
}

/// The globe, and boxes whose latitudes would be good longitudes.
const WHOLE: [[i32; 4]; 8] = [
    [-LAT, -LON, LAT, LON],
    [-LAT, -LON, -LAT, -LON],
    [LAT, LON, LAT, LON],
    [-LON, -LAT, LON, LAT],
    [0, LAT + 1, 0, LON],
    [LAT + 1, 0, LON, 0],
    [1, 2, 3, 4],
    [-4, -3, -2, -1],
];

/// Good boxes, for the last bits of the degrees.
fn random_boxes(records: &mut Records) {
    let mut random = Random::new(SEED);
    repeat(20, || {
        let mut sides = |limit: i32| {
            let mut side = || random.below(2 * limit as usize + 1) as i32 - limit;
            let (a, b) = (side(), side());
            [a.min(b), a.max(b)]
        };
        let (lat, lon) = (sides(LAT), sides(LON));
        add_box(records, [lat[0], lon[0], lat[1], lon[1]]);
    });
}
