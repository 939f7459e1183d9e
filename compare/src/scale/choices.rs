//! What a case chooses at random.

use mapsforge_rs::grid::Grid;
use mapsforge_rs::types::MapHeader;

use super::known::Policy;
use super::way_data;
use crate::random::Random;
use crate::tiles::Address;

/// Up to so many features are fetched in a case.
const FETCHES: usize = 3;

impl Random {
    /// Numbers of one case, which do not depend on the cases before it.
    pub fn of_case(seed: u64, case: u64) -> Self {
        let mut mixed = seed.wrapping_add(case.wrapping_mul(0x9E37_79B9_7F4A_7C15));
        mixed = (mixed ^ mixed >> 30).wrapping_mul(0xBF58_476D_1CE4_E5B9);
        mixed = (mixed ^ mixed >> 27).wrapping_mul(0x94D0_49BB_1331_11EB);
        Random::new((mixed ^ mixed >> 31) | 1)
    }

    /// Another tile, sub file or grid, good or bad.
    pub fn other_place(&mut self, at: Address) -> Address {
        let Address { sub_file, grid, tile } = at;
        let tiles = u64::from(grid.tiles().unwrap_or(1));
        match self.below(5) {
            0 => Address { tile: tiles + self.below(2) as u64, ..at },
            1 => Address { tile: [tiles - 1, u64::MAX, 1 << 32][self.below(3)], ..at },
            2 => Address { sub_file: sub_file.wrapping_add(self.below(3) as u64), ..at },
            3 => Address { grid: Grid { x_max: grid.x_min.saturating_sub(1), ..grid }, ..at },
            _ => {
                let (x_min, y_max) = (i32::MIN, [i32::MAX, grid.y_max][self.below(2)]);
                Address { sub_file, grid: Grid { x_min, y_max, ..grid }, tile }
            }
        }
    }

    /// Some features of so many, and at times one that is not there.
    pub fn features(&mut self, count: usize) -> Vec<u64> {
        let past = [count, count + 1, usize::MAX][self.below(3)] as u64;
        let missing = (count == 0 || self.below(4) == 0).then_some(past);
        if count <= FETCHES {
            return (0..count as u64).chain(missing).collect();
        }
        let some: Vec<u64> = (0..FETCHES).map(|_| self.below(count) as u64).collect();
        some.into_iter().chain(missing).collect()
    }

    /// A zoom of the sub file's interval or beside it, at times any.
    pub fn zoom(&mut self, header: &MapHeader, at: &Address) -> u8 {
        let intervals = &header.zoom_interval_configuration;
        let interval = usize::try_from(at.sub_file).ok().and_then(|k| intervals.get(k));
        let Some(interval) = interval.filter(|_| self.below(8) > 0) else { return self.byte() };
        let (lowest, highest) = (interval.min_zoom_level, interval.max_zoom_level);
        let rows = usize::from(highest.saturating_sub(lowest));
        lowest.saturating_sub(1).saturating_add(self.below(rows + 3) as u8)
    }

    /// The number of a sub file, at times another one.
    pub fn sub_file_number(&mut self, sub_file: u64) -> u64 {
        [sub_file, self.next(), u64::MAX][[0, 0, 0, 0, 0, 0, 1, 2][self.below(8)]]
    }

    /// A way's data anywhere in a map, at times behind its end.
    pub fn way_data(&mut self, length: usize) -> way_data::Question {
        let at = [self.below(length + 9), length - self.below(64).min(length), usize::MAX];
        let at = at[[0, 0, 0, 0, 1, 1, 1, 2][self.below(8)]];
        let data_blocks = [1, self.below(4) as u64, self.next()][self.below(3)];
        way_data::Question { at, data_blocks, double: self.below(2) == 0 }
    }

    pub fn policy(&mut self) -> Policy {
        match self.below(4) {
            0 => Policy::All,
            1 => Policy::None,
            _ => Policy::Random(self.next()),
        }
    }

    pub fn longitude(&mut self) -> f64 {
        match self.below(4) {
            0 => f64::from_bits(self.next()),
            1 => [180.0, -180.0, -190.0, 0.0, f64::NAN, f64::INFINITY][self.below(6)],
            _ => self.below(400_000_000) as f64 / 1_000_000.0 - 200.0,
        }
    }
}
