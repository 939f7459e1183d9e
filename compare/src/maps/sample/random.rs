//! Maps with several random faults.

use super::{rich_debug_map, rich_header, Records};
use crate::random::{repeat, Random};

const SEED: u64 = 0xF4017;

pub fn add(records: &mut Records) {
    let mut random = Random::new(SEED);
    for map in [rich_header().bytes(), rich_debug_map()] {
        repeat(60, || records.map(&random.damaged(&map)));
    }
}

impl Random {
    /// Up to five bytes of a map are replaced, at times by what a length or count goes on with, and
    /// at times its end is missing. Magic bytes and box are left, or little else would be reached.
    fn damaged(&mut self, map: &[u8]) -> Vec<u8> {
        let mut map = map.to_vec();
        for _ in 0..=self.below(5) {
            let place = 60 + self.below(map.len() - 60);
            map[place] = match self.below(3) {
                0 => self.byte(),
                1 => map[place] ^ 1 << self.below(8),
                _ => 0x80,
            };
        }
        if self.below(4) == 0 {
            map.truncate(map.len() - self.below(20));
        }
        map
    }
}
