//! The grid of a sub file, which the host gives (document 01, tile.rs). The changed
//! `calculate_total_tiles` and `get_tiles` answer from the grid lent last on this thread.

use std::cell::Cell;

/// The first and last column and row of a sub file's tiles.
#[derive(Clone, Copy, Debug)]
pub struct Grid {
    pub x_min: i32,
    pub y_min: i32,
    pub x_max: i32,
    pub y_max: i32,
}

thread_local! {
    static LENT: Cell<Option<Grid>> = const { Cell::new(None) };
    static CORNERS_ASKED: Cell<u64> = const { Cell::new(0) };
}

/// Lends a grid to the Rust. To be called before each use, since it also starts the corners anew.
pub fn lend(grid: Grid) {
    LENT.set(Some(grid));
    CORNERS_ASKED.set(0);
}

impl Grid {
    /// The number of tiles; none for what document 01 refuses by 14: reversed, or over 2^32 - 1 tiles.
    pub fn tiles(&self) -> Option<u32> {
        let columns = extent(self.x_min, self.x_max)?;
        let rows = extent(self.y_min, self.y_max)?;
        u32::try_from(columns.checked_mul(rows)?).ok()
    }
}

/// How many numbers there are from `min` to `max`; none if they are reversed.
fn extent(min: i32, max: i32) -> Option<u64> {
    u64::try_from(i64::from(max) - i64::from(min) + 1).ok().filter(|&n| n > 0)
}

fn lent() -> Grid {
    LENT.get().expect("the driver lends a grid first")
}

/// Stands for `calculate_total_tiles`.
pub(crate) fn tiles() -> u32 {
    lent().tiles().expect("a bad grid is 14, the driver does not ask the Rust")
}

/// Stands for `get_tiles`, which `tile_index_of` asks for the top left and then the bottom right.
pub(crate) fn next_corner() -> (i32, i32) {
    let grid = lent();
    let asked = CORNERS_ASKED.get();
    CORNERS_ASKED.set(asked + 1);
    if asked % 2 == 0 {
        (grid.x_min, grid.y_min)
    } else {
        (grid.x_max, grid.y_max)
    }
}
