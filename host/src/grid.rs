//! The tiles that a bounding box covers.

use crate::{raw, word, BoundingBox, Refusal};
use std::f64::consts::PI;

/// The latitude at which the Mercator square ends, in degrees.
pub const LATITUDE_LIMIT: f64 = 85.051_128_779_806_59;

/// The columns and rows of a sub file's tiles, both ends included.
///
/// ```
/// # use mapsforge::{BoundingBox, Grid};
/// let world = BoundingBox { south: -90.0, west: -180.0, north: 90.0, east: 180.0 };
/// let grid = Grid::of_box(&world, 3)?;
/// assert_eq!(grid, Grid { x_min: 0, y_min: 0, x_max: 7, y_max: 7 });
/// # Ok::<(), mapsforge::Refusal>(())
/// ```
#[derive(Clone, Copy, Debug, PartialEq, Eq, Hash)]
pub struct Grid {
    /// The first column.
    pub x_min: i32,
    /// The first row, the northernmost.
    pub y_min: i32,
    /// The last column.
    pub x_max: i32,
    /// The last row.
    pub y_max: i32,
}

impl Grid {
    /// The tiles that a box covers at a zoom. Refusal 18 where the zoom is above 63.
    ///
    /// The columns are the library's. Both columns and rows are kept within the square, as the writers of maps do: a box
    /// that reaches 180 degrees, or the poles, ends with the last column and row.
    pub fn of_box(covered: &BoundingBox, zoom: u8) -> Result<Grid, Refusal> {
        Ok(Grid {
            x_min: column_of_longitude(covered.west, zoom)?,
            y_min: row_of_latitude(covered.north, zoom)?,
            x_max: column_of_longitude(covered.east, zoom)?,
            y_max: row_of_latitude(covered.south, zoom)?,
        })
    }

    /// As the library takes it.
    pub fn corners(&self) -> [i32; 4] {
        [self.x_min, self.y_min, self.x_max, self.y_max]
    }

    /// How many columns there are; 0 in a reversed grid.
    pub fn columns(&self) -> u64 {
        (i64::from(self.x_max) - i64::from(self.x_min) + 1).max(0) as u64
    }

    /// How many rows there are; 0 in a reversed grid.
    pub fn rows(&self) -> u64 {
        (i64::from(self.y_max) - i64::from(self.y_min) + 1).max(0) as u64
    }

    /// How many tiles there are.
    pub fn tiles(&self) -> u64 {
        self.columns().saturating_mul(self.rows())
    }

    /// The column and row of the tile of a number, if the grid has it.
    pub fn place_of(&self, number: u64) -> Option<(i32, i32)> {
        if number >= self.tiles() {
            return None;
        }
        let x = i64::from(self.x_min) + (number % self.columns()) as i64;
        let y = i64::from(self.y_min) + (number / self.columns()) as i64;
        Some((x as i32, y as i32))
    }
}

/// The last column and row of a zoom, as far as they fit.
fn last(zoom: u8) -> Result<i64, Refusal> {
    if zoom > 63 {
        return Err(Refusal::ZoomTooLarge);
    }
    Ok(((1u64 << zoom) - 1).min(i32::MAX as u64) as i64)
}

/// The column that a longitude lies in, kept within the square.
fn column_of_longitude(longitude: f64, zoom: u8) -> Result<i32, Refusal> {
    let mut column = [0];
    let mut words = [0; word::VALUES];
    Refusal::check(raw::column(longitude, zoom, &mut words, &mut column), &words)?;
    Ok(column[0].clamp(0, last(zoom)?) as i32)
}

/// The row that a latitude lies in, kept within the square. Refusal 18 where the zoom is above 63.
pub fn row_of_latitude(latitude: f64, zoom: u8) -> Result<i32, Refusal> {
    let last = last(zoom)?;
    // Beyond the square tangent and logarithm no longer tell where it ends.
    if latitude >= LATITUDE_LIMIT {
        return Ok(0);
    }
    if latitude <= -LATITUDE_LIMIT {
        return Ok(last as i32);
    }
    let tiles = (1u64 << zoom) as f64;
    let latitude = latitude * PI / 180.0;
    let down = (1.0 - (latitude.tan() + 1.0 / latitude.cos()).ln() / PI) / 2.0;
    Ok(((down * tiles) as i64).clamp(0, last) as i32)
}

/// The latitude at which a row starts: its northern edge.
pub fn latitude_of_row(row: u32, zoom: u8) -> Result<f64, Refusal> {
    last(zoom)?;
    let turned = PI - 2.0 * PI * f64::from(row) / (1u64 << zoom) as f64;
    Ok(turned.sinh().atan() * 180.0 / PI)
}
