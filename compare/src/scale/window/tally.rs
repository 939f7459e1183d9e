//! What was compared.

use super::model::{Model, Tile};
use super::{Grid, Window};

#[derive(Default)]
pub struct Tally {
    windows: u64,
    /// Windows by how the model answers.
    refused: u64,
    over_window: u64,
    over_grid: u64,
    over_both: u64,
    vast: u64,
    /// Windows that are reversed, that have no tiles though they are not, that reach an end of 64 bits, and that are 2^64
    /// wide or high; and those on grids that reach an end of 32 bits, or below 0.
    reversed: u64,
    beside: u64,
    at_ends: u64,
    widest: u64,
    grid_ends: u64,
    below_zero: u64,
    /// Tiles, of them those with all cells and those in a column or row below 0, and answers that there is none.
    tiles: u64,
    full: u64,
    negative: u64,
    absent: u64,
    shared: u64,
    apart: u64,
}

impl Tally {
    pub fn window(&mut self, grid: Grid, window: Window, model: &Model) {
        self.windows += 1;
        *match model {
            Model::BadGrid => &mut self.refused,
            Model::Walked { window: true, grid: true, .. } => &mut self.over_both,
            Model::Walked { window: true, .. } => &mut self.over_window,
            Model::Walked { .. } => &mut self.over_grid,
            Model::Vast { .. } => &mut self.vast,
        } += 1;
        if model.count().is_none() {
            return;
        }
        let [left, top, right, bottom] = window;
        let reversed = left > right || top > bottom;
        self.reversed += u64::from(reversed);
        self.beside += u64::from(!reversed && model.count() == Some(0));
        let at_end = |number: &i64| *number < i64::MIN + 4 || *number > i64::MAX - 4;
        self.at_ends += u64::from(window.iter().any(at_end));
        let widest = |low, high| (low, high) == (i64::MIN, i64::MAX);
        self.widest += u64::from(widest(left, right) || widest(top, bottom));
        self.grid_ends += u64::from(grid.iter().any(|&end| end == i32::MIN || end == i32::MAX));
        self.below_zero += u64::from(window.iter().any(|&number| number < 0));
    }

    pub fn tile(&mut self, tile: Option<Tile>, behind: bool) {
        let Some(Tile { x, y, mask, .. }) = tile else {
            self.absent += 1;
            return;
        };
        assert!(!behind, "the model has a tile behind the last");
        self.tiles += 1;
        self.full += u64::from(mask == u16::MAX);
        self.negative += u64::from(x < 0 || y < 0);
    }

    pub fn decision(&mut self, shared: bool) {
        *if shared { &mut self.shared } else { &mut self.apart } += 1;
    }

    fn rows(&self) -> [(&'static str, u64); 17] {
        [
            ("refused with 14", self.refused),
            ("walked over by sub tiles and by the grid's tiles", self.over_both),
            ("walked over by sub tiles alone", self.over_window),
            ("walked over by the grid's tiles alone", self.over_grid),
            ("counted in 128 bits, both vast", self.vast),
            ("reversed", self.reversed),
            ("beside the grid", self.beside),
            ("with an end of 64 bits", self.at_ends),
            ("2^64 wide or high", self.widest),
            ("on a grid with an end of 32 bits", self.grid_ends),
            ("with a number below 0", self.below_zero),
            ("tiles compared", self.tiles),
            ("of them with all cells touched", self.full),
            ("of them in a column or row below 0", self.negative),
            ("answers that there is no such tile", self.absent),
            ("ways that share a cell", self.shared),
            ("ways that share none", self.apart),
        ]
    }

    pub fn print(&self, seed: u64) {
        println!("windows: {}, seed {seed}", self.windows);
        for (what, number) in self.rows() {
            println!("{number:>12}  {what}");
        }
    }

    /// Whether no kind is missing: else nothing was compared there.
    pub fn all_came(&self) -> bool {
        let missing: Vec<_> = self.rows().into_iter().filter(|(_, number)| *number == 0).collect();
        for (what, _) in &missing {
            println!("MISSING: {what}");
        }
        missing.is_empty()
    }
}
