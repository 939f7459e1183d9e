//! What a window touches, by walks.

use std::collections::BTreeMap;

use super::super::check::Checked;
use super::{same, Grid, Window};

/// More sub tiles, or tiles, than this are not walked over.
const FEW: u128 = 400;

#[derive(Clone, Copy, Debug, PartialEq)]
pub struct Tile {
    pub x: i32,
    pub y: i32,
    pub number: u64,
    pub mask: u16,
}

pub enum Model {
    /// The grid is reversed, or has more than 2^32 - 1 tiles.
    BadGrid,
    /// The tiles, by a walk over the window, over the grid, or over both.
    Walked { tiles: Vec<Tile>, window: bool, grid: bool },
    /// Both are vast.
    Vast { grid: Grid, window: Window },
}

/// From one number to another, both included; 0 if they are reversed.
fn length(low: i64, high: i64) -> u128 {
    (i128::from(high) - i128::from(low) + 1).max(0) as u128
}

impl Model {
    pub fn of(grid: Grid, window: Window) -> Checked<Model> {
        let [x_min, y_min, x_max, y_max] = grid.map(i64::from);
        let tiles = length(x_min, x_max) * length(y_min, y_max);
        if tiles == 0 || tiles >= 1 << 32 {
            return Ok(Model::BadGrid);
        }
        let [left, top, right, bottom] = window;
        let few = length(left, right).max(1).saturating_mul(length(top, bottom).max(1)) <= FEW;
        let by_window = few.then(|| over_window(grid, window));
        let by_grid = (tiles <= FEW).then(|| over_grid(grid, window));
        Ok(match (by_window, by_grid) {
            (Some(tiles), Some(others)) => {
                same("the walk over the grid", &others, &tiles)?;
                Model::Walked { tiles, window: true, grid: true }
            }
            (Some(tiles), None) => Model::Walked { tiles, window: true, grid: false },
            (None, Some(tiles)) => Model::Walked { tiles, window: false, grid: true },
            (None, None) => Model::Vast { grid, window },
        })
    }

    /// The answer's number.
    pub fn number(&self) -> u64 {
        match self {
            Model::BadGrid => 14,
            _ => 0,
        }
    }

    /// How many tiles, unless the grid is bad.
    pub fn count(&self) -> Option<u64> {
        match self {
            Model::BadGrid => None,
            Model::Walked { tiles, .. } => Some(tiles.len() as u64),
            Model::Vast { grid, window } => {
                let [across, down] = [0, 1].map(|axis| Axis::of(grid, window, axis));
                Some((across.count * down.count) as u64)
            }
        }
    }

    /// How many tiles stand in a row, at least 1.
    pub fn columns(&self) -> u64 {
        match self {
            Model::BadGrid => 1,
            Model::Walked { tiles, .. } => {
                tiles.iter().filter(|tile| tile.y == tiles[0].y).count().max(1) as u64
            }
            Model::Vast { grid, window } => Axis::of(grid, window, 0).count.max(1) as u64,
        }
    }

    pub fn tile(&self, k: u64) -> Option<Tile> {
        match self {
            Model::BadGrid => None,
            Model::Walked { tiles, .. } => tiles.get(usize::try_from(k).ok()?).copied(),
            Model::Vast { grid, window } => {
                let [across, down] = [0, 1].map(|axis| Axis::of(grid, window, axis));
                let (row, column) =
                    (i128::from(k) / across.count.max(1), i128::from(k) % across.count.max(1));
                if across.count == 0 || row >= down.count {
                    return None;
                }
                let (x, y) = (across.first + column, down.first + row);
                Some(tile_of(grid, x as i32, y as i32, cells(window, x, y)))
            }
        }
    }
}

/// The touched columns (axis 0) or rows (axis 1) of a grid.
struct Axis {
    first: i128,
    count: i128,
}

impl Axis {
    fn of(grid: &Grid, window: &Window, axis: usize) -> Axis {
        let [grid_low, grid_high] = [grid[axis], grid[axis + 2]].map(i128::from);
        let [low, high] = [window[axis], window[axis + 2]].map(i128::from);
        let first = low.div_euclid(4).max(grid_low);
        let last = high.div_euclid(4).min(grid_high);
        let count = if low > high { 0 } else { (last - first + 1).max(0) };
        Axis { first, count }
    }
}

fn tile_of(grid: &Grid, x: i32, y: i32, mask: u16) -> Tile {
    let [x_min, y_min, x_max, _] = grid.map(i64::from);
    let number = (i64::from(y) - y_min) * (x_max - x_min + 1) + i64::from(x) - x_min;
    Tile { x, y, number: number as u64, mask }
}

/// The touched cells of a tile, one after the other: the first is the highest bit.
fn cells(window: &Window, x: i128, y: i128) -> u16 {
    let [left, top, right, bottom] = window.map(i128::from);
    let mut mask = 0;
    for row in 0..4 {
        for column in 0..4 {
            let (at_x, at_y) = (4 * x + column, 4 * y + row);
            let touched = left <= at_x && at_x <= right && top <= at_y && at_y <= bottom;
            mask = mask << 1 | u16::from(touched);
        }
    }
    mask
}

/// Every tile of the grid, row by row: it is touched if a cell of it is.
fn over_grid(grid: Grid, window: Window) -> Vec<Tile> {
    let [x_min, y_min, x_max, y_max] = grid;
    let mut tiles = Vec::new();
    for y in y_min..=y_max {
        for x in x_min..=x_max {
            let mask = cells(&window, x.into(), y.into());
            if mask != 0 {
                tiles.push(tile_of(&grid, x, y, mask));
            }
        }
    }
    tiles
}

/// Every sub tile of the window: it marks its cell in its tile.
fn over_window(grid: Grid, window: Window) -> Vec<Tile> {
    let [left, top, right, bottom] = window.map(i128::from);
    let [x_min, y_min, x_max, y_max] = grid.map(i128::from);
    let mut marked: BTreeMap<(i128, i128), u16> = BTreeMap::new();
    let mut y = top;
    while y <= bottom {
        let mut x = left;
        while x <= right {
            // down to the sub tile with which the tile starts
            let (mut column, mut row) = (x, y);
            while column % 4 != 0 {
                column -= 1;
            }
            while row % 4 != 0 {
                row -= 1;
            }
            let (tile_x, tile_y) = (column / 4, row / 4);
            if x_min <= tile_x && tile_x <= x_max && y_min <= tile_y && tile_y <= y_max {
                let cell = (y - row) * 4 + (x - column);
                *marked.entry((tile_y, tile_x)).or_default() |= 1 << (15 - cell);
            }
            x += 1;
        }
        y += 1;
    }
    let tile = |((y, x), mask)| tile_of(&grid, x as i32, y as i32, mask);
    marked.into_iter().map(tile).collect()
}

/// Whether some cell is in both, cell by cell.
pub fn shares(bitmap: u16, mask: u16) -> bool {
    (0..16).any(|cell| bitmap >> cell & 1 == 1 && mask >> cell & 1 == 1)
}
