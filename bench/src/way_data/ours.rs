//! The library's functions. A slice is passed as its address and its length.

use mapsforge::sys;

/// The lists that a caller lends.
#[derive(Clone, PartialEq)]
pub struct Lists {
    pub counts: Vec<u64>,
    pub latitudes: Vec<f64>,
    pub longitudes: Vec<f64>,
}

/// The number answered; with 0 words 6 to 9 are the blocks, the nodes, the place behind them and whether their numbers are plain.
pub fn measure(map: &[u8], data_blocks: u64, words: &mut [u64; 10]) -> u64 {
    // SAFETY: each pair is the address and the length of a live slice, and no two overlap.
    unsafe { sys::mapsforge_measure_way_data(map.as_ptr(), map.len(), 0, data_blocks, words) }
}

/// The number answered; with 0 the nodes are at the fronts of the lists.
pub fn read(map: &[u8], data_blocks: u64, double: bool, lists: &mut Lists) -> u64 {
    let mut words = [0; 10];
    // SAFETY: each pair is the address and the length of a live slice, and no two overlap.
    unsafe {
        sys::mapsforge_read_way_data(
            map.as_ptr(),
            map.len(),
            0,
            data_blocks,
            double,
            lists.counts.as_mut_ptr(),
            lists.counts.len(),
            lists.latitudes.as_mut_ptr(),
            lists.latitudes.len(),
            lists.longitudes.as_mut_ptr(),
            lists.longitudes.len(),
            &mut words,
        )
    }
}
