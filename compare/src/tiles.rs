//! Tiles, collected and streamed: the forms that the Rust's own and those of document 01's model are
//! brought into, and the Rust's.

pub mod delivery;
pub mod feature;
pub mod rust;

use mapsforge_rs::grid::Grid;

/// A tile of a sub file, and the sub file's grid.
#[derive(Clone, Copy)]
pub struct Address {
    pub sub_file: u64,
    pub grid: Grid,
    pub tile: u64,
}
