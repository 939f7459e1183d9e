//! Which part of the world a picture shows.

use super::{Pixel, SIZE};
use mapsforge::{Position, Refusal, SubFile, TilePlace, EARTH_RADIUS, LATITUDE_LIMIT};
use std::f64::consts::PI;

/// A square of the Mercator projection, whose whole world has the side 1.
#[derive(Clone, Copy, Debug, PartialEq)]
pub struct View {
    left: f64,
    top: f64,
    side: f64,
}

/// Where a place lies in the world's square: to the right and down.
fn projected(at: Position) -> (f64, f64) {
    let latitude = at.latitude.clamp(-LATITUDE_LIMIT, LATITUDE_LIMIT).to_radians();
    ((at.longitude + 180.0) / 360.0, (1.0 - latitude.tan().asinh() / PI) / 2.0)
}

impl View {
    /// A tile.
    pub fn of_tile(zoom: u8, place: TilePlace) -> View {
        let side = 0.5f64.powi(zoom.into());
        View { left: f64::from(place.x) * side, top: f64::from(place.y) * side, side }
    }

    /// The smallest square around these columns and rows of a zoom, both ends included.
    pub fn of_columns(zoom: u16, [left, top, right, bottom]: [i64; 4]) -> View {
        let unit = 0.5f64.powi(zoom.into());
        let (width, height) = ((right - left + 1) as f64, (bottom - top + 1) as f64);
        let most = width.max(height);
        View {
            left: (left as f64 - (most - width) / 2.0) * unit,
            top: (top as f64 - (most - height) / 2.0) * unit,
            side: most * unit,
        }
    }

    /// A square of so many metres around a place.
    pub fn around(at: Position, metres: f64) -> View {
        let (right, down) = projected(at);
        let limited = at.latitude.clamp(-LATITUDE_LIMIT, LATITUDE_LIMIT);
        let circle = 2.0 * PI * EARTH_RADIUS * limited.to_radians().cos();
        let side = (metres / circle).min(1.0);
        View { left: right - side / 2.0, top: down - side / 2.0, side }
    }

    /// Where a place is in the picture.
    pub fn pixel(&self, at: Position) -> Pixel {
        let (right, down) = projected(at);
        ((right - self.left) / self.side * SIZE, (down - self.top) / self.side * SIZE)
    }

    /// The zoom whose tiles have this size.
    pub fn zoom(&self) -> f64 {
        -self.side.log2()
    }

    /// Where columns and rows of a zoom are in the picture: their corner, width and height.
    pub fn columns(&self, zoom: u16, [left, top, right, bottom]: [i64; 4]) -> (Pixel, Pixel) {
        let pixels = 0.5f64.powi(zoom.into()) / self.side * SIZE;
        let start = |number: i64, start: f64| number as f64 * pixels - start / self.side * SIZE;
        (
            (start(left, self.left), start(top, self.top)),
            ((right - left + 1) as f64 * pixels, (bottom - top + 1) as f64 * pixels),
        )
    }

    /// Where a tile is in the picture: its corner and its side.
    pub fn square(&self, zoom: u8, place: TilePlace) -> (Pixel, f64) {
        let tile = View::of_tile(zoom, place);
        let pixels = |world: f64| world / self.side * SIZE;
        ((pixels(tile.left - self.left), pixels(tile.top - self.top)), pixels(tile.side))
    }

    /// The tiles of a sub file that the picture shows a part of, row by row; none if they are more than `most`.
    pub fn tiles(
        &self,
        sub_file: &SubFile<'_, '_>,
        most: u64,
    ) -> Result<Option<Vec<TilePlace>>, Refusal> {
        let grid = sub_file.grid();
        let tiles = 2f64.powi(sub_file.interval().base_zoom.into());
        let clamped = |world: f64, low: i32, high: i32| {
            (world * tiles).floor().clamp(f64::from(low) - 1.0, f64::from(high) + 1.0) as i64
        };
        // A tile that only touches the edge shows nothing.
        let end = |start: f64| start + self.side * (1.0 - 1e-9);
        let columns = clamped(self.left, grid.x_min, grid.x_max).max(grid.x_min.into())
            ..=clamped(end(self.left), grid.x_min, grid.x_max).min(grid.x_max.into());
        let rows = clamped(self.top, grid.y_min, grid.y_max).max(grid.y_min.into())
            ..=clamped(end(self.top), grid.y_min, grid.y_max).min(grid.y_max.into());
        let length =
            |range: &std::ops::RangeInclusive<i64>| (range.end() - range.start() + 1).max(0) as u64;
        if length(&columns).saturating_mul(length(&rows)) > most {
            return Ok(None);
        }
        let mut found = Vec::new();
        for row in rows {
            for column in columns.clone() {
                found.extend(sub_file.tile_at(column as i32, row as i32)?);
            }
        }
        Ok(Some(found))
    }
}
