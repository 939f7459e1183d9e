//! Windows and grids at every limit, and random ones.

use super::{Grid, Window};
use crate::random::Random;

const LOW: i32 = i32::MIN;
const HIGH: i32 = i32::MAX;

/// Small ones around 0 and at the ends of 32 bits, the largest that are good, and bad ones.
pub const GRIDS: [Grid; 24] = [
    [0, 0, 0, 0],
    [-1, -1, -1, -1],
    [-2, -1, 1, 2],
    [-5, -7, -3, -4],
    [3, -4, 5, -2],
    [4094, 2270, 4097, 2272],
    [LOW, LOW, LOW + 2, LOW + 1],
    [HIGH - 2, HIGH - 1, HIGH, HIGH],
    [LOW, HIGH, LOW, HIGH],
    [HIGH, LOW, HIGH, LOW + 3],
    // a row and a column of 2^32 - 1 tiles, and what is nearly a square of them
    [LOW, 0, HIGH - 1, 0],
    [LOW + 1, -1, HIGH, -1],
    [0, LOW, 0, HIGH - 1],
    [-32768, -32768, 32766, 32767],
    [HIGH - 65534, LOW, HIGH, LOW + 65535],
    [-3, -100_000, 3, 100_000],
    // reversed
    [1, 0, 0, 0],
    [0, 1, 0, 0],
    [HIGH, 0, LOW, 0],
    [5, 5, 4, 4],
    // one tile too many, and far too many
    [LOW, 0, HIGH, 0],
    [7, LOW, 7, HIGH],
    [-32768, -32768, 32767, 32767],
    [LOW, LOW, HIGH, HIGH],
];

/// Numbers at and beside the ends of an axis of a grid, of 64 bits, and around 0.
fn ends(grid: &Grid, axis: usize) -> Vec<i64> {
    let (low, high) = (4 * i64::from(grid[axis]), 4 * i64::from(grid[axis + 2]) + 3);
    let mut ends = vec![i64::MIN, i64::MIN + 1, i64::MIN + 3, i64::MIN + 4];
    ends.extend([i64::MAX, i64::MAX - 1, i64::MAX - 3, i64::MAX - 4]);
    ends.extend([-9, -5, -4, -3, -1, 0, 1, 3, 4, 8]);
    for end in [low, high] {
        ends.extend([-5, -4, -3, -1, 0, 1, 3, 4, 5].map(|step| end + step));
    }
    ends.sort_unstable();
    ends.dedup();
    ends
}

/// Each pair of such ends on one axis, with some of the other.
pub fn windows() -> impl Iterator<Item = (Grid, Window)> {
    GRIDS.into_iter().flat_map(|grid| {
        [0, 1].into_iter().flat_map(move |axis| {
            let (ends, others) = (ends(&grid, axis), ends(&grid, 1 - axis));
            let pairs: Vec<_> =
                ends.iter().flat_map(|&low| ends.iter().map(move |&high| (low, high))).collect();
            let other = move |k: usize| {
                let (low, high) = (k * 7 % others.len(), k * 13 % others.len());
                match k % 4 {
                    0 => (others[0], others[others.len() - 1]),
                    1 => (others[low], others[low]),
                    2 => (others[low.min(high)], others[low.max(high)]),
                    _ => (others[low], others[high]),
                }
            };
            pairs.into_iter().enumerate().map(move |(k, (low, high))| {
                let (other_low, other_high) = other(k);
                let window = match axis {
                    0 => [low, other_low, high, other_high],
                    _ => [other_low, low, other_high, high],
                };
                (grid, window)
            })
        })
    })
}

/// A grid and a window, most of them near each other.
pub fn random(random: &mut Random) -> (Grid, Window) {
    let grid = match random.below(4) {
        0 => GRIDS[random.below(GRIDS.len())],
        1 => {
            let start = || [0, -3, LOW, HIGH - 40, 1 << 20];
            let [x, y] = [random.below(5), random.below(5)].map(|k| start()[k]);
            let [wide, high] = [random.below(41), random.below(41)].map(|size| size as i32);
            [x, y, x + wide, y + high]
        }
        _ => {
            // of all sizes up to 2^32 tiles, and some beyond; one in eight is reversed on an axis
            let bits = random.below(33);
            let [wide, high] =
                [bits, random.below(34 - bits)].map(|bits| random.next() % (1 << bits));
            let [x, y] = [0, 1].map(|_| i64::from(random.next() as i32 >> (random.next() % 32)));
            let end = |start: i64, size: u64| (start + size as i64).min(HIGH.into()) as i32;
            let grid = [x as i32, y as i32, end(x, wide), end(y, high)];
            match random.below(16) {
                0 => [grid[2], grid[1], grid[0], grid[3]],
                1 => [grid[0], grid[3], grid[2], grid[1]],
                _ => grid,
            }
        }
    };
    let mut side = |axis: usize| {
        let near = ends(&grid, axis);
        let mut number = || match random.below(4) {
            0 => random.next() as i64 >> (random.next() % 64),
            1 => near[random.below(near.len())],
            _ => near[random.below(near.len())].saturating_add(random.below(41) as i64 - 20),
        };
        let (low, other) = (number(), number());
        match random.below(8) {
            0 => (low, other),
            1..=4 => (low, low.saturating_add(random.below(24) as i64)),
            _ => (low.min(other), low.max(other)),
        }
    };
    let ((left, right), (top, bottom)) = (side(0), side(1));
    (grid, [left, top, right, bottom])
}
