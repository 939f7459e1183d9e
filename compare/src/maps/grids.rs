//! The grids of a map's sub files, which document 01 leaves to the host: the columns and rows that the map's
//! bounding box covers at each base zoom.

use std::f64::consts::PI;

use mapsforge_rs::grid::Grid;
use mapsforge_rs::types::{BoundingBox, MapFile, MapHeader};

use crate::differences;
use crate::source::Source;

/// The latitude in degrees where the square of the rows ends. Beyond it the formula gives no row.
const LIMIT: f64 = 85.051_128_779_806_59;

/// The grid of a sub file that has none of its own.
pub const UNKNOWN: Grid = Grid { x_min: 0, y_min: 0, x_max: 3, y_max: 3 };

/// One for each sub file. With a base zoom above 63 there are no columns.
pub fn of(header: &MapHeader) -> Vec<Grid> {
    let zooms = header.zoom_interval_configuration.iter().map(|interval| interval.base_zoom_level);
    let of_zoom = |zoom| match differences::zoom(zoom) {
        Some(_) => UNKNOWN,
        None => covered(&header.bounding_box, zoom),
    };
    zooms.map(of_zoom).collect()
}

/// How many tiles a grid has, also if they are more than document 01 allows.
pub fn tiles(grid: &Grid) -> u64 {
    let extent = |min: i32, max: i32| (i64::from(max) - i64::from(min) + 1).max(0) as u64;
    extent(grid.x_min, grid.x_max) * extent(grid.y_min, grid.y_max)
}

/// So many tiles of a grid at most, from the first to the last.
pub fn some(grid: &Grid, most: u64) -> impl Iterator<Item = u64> {
    let count = tiles(grid);
    let asked = count.min(most);
    // the tiles of a grid are up to 2^62
    let spread = move |k: u64| u128::from(k) * u128::from(count - 1) / u128::from(asked.max(2) - 1);
    (0..asked).map(move |k| spread(k) as u64)
}

/// Rows grow southwards.
fn covered(sides: &BoundingBox, zoom: u8) -> Grid {
    Grid {
        x_min: column(sides.min_lon, zoom),
        y_min: row(sides.max_lat, zoom),
        x_max: column(sides.max_lon, zoom),
        y_max: row(sides.min_lat, zoom),
    }
}

/// The Rust's column. Writers of maps end with the square's last one, also at 180 degrees.
fn column(longitude: f64, zoom: u8) -> i32 {
    MapFile::<Source>::get_tiles_column(longitude, zoom).clamp(0, last(zoom))
}

/// The row by tangent and logarithm, ended in the same way.
fn row(latitude: f64, zoom: u8) -> i32 {
    let kept = latitude.clamp(-LIMIT, LIMIT);
    let angle = kept * PI / 180.0;
    let down = (1.0 - (angle.tan() + 1.0 / angle.cos()).ln() / PI) / 2.0;
    let row = (down * (1_u64 << zoom) as f64) as i32;
    row.clamp(0, last(zoom))
}

/// The last column and row of a zoom, as far as a grid holds them.
fn last(zoom: u8) -> i32 {
    i32::try_from((1_u64 << zoom) - 1).unwrap_or(i32::MAX)
}
