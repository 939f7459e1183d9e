//! Records on a given map.

use std::fs;
use std::io;
use std::path::Path;

use mapsforge_rs::grid::Grid;
use mapsforge_rs::types::MapHeader;

use super::calls::{Form, Records};
use super::{grids, open};

/// A map shorter than this is also tried with every cut.
const CUT_BYTES: usize = 4096;
const LAST_ZOOM: u8 = 30;
const ENTRIES: u64 = 20;

/// Writes the records to `stdin` and a line for each of them to `stdout`.
pub fn write(file: &Path, folder: &Path, form: Form) -> io::Result<()> {
    let map = fs::read(file)?;
    let mut records = Records::default();
    records.map(&map);
    if map.len() < CUT_BYTES {
        records.all_cuts();
    }
    records.all_damages();
    (0..=LAST_ZOOM).for_each(|zoom| records.zoom(zoom));
    // a map that does not open has none of the rest
    if let Ok(header) = open::with_map(&map, |map| map.header) {
        tags(&mut records, &header);
        sub_files(&mut records, &header);
    }
    records.write(folder, form)
}

/// All tags, and one past the last.
fn tags(records: &mut Records, header: &MapHeader) {
    (0..=header.poi_tags.len()).for_each(|k| records.poi_tag(k as u16));
    (0..=header.way_tags.len()).for_each(|k| records.way_tag(k as u16));
}

/// All sub files, and one past the last.
fn sub_files(records: &mut Records, header: &MapHeader) {
    for (sub_file, grid) in (0..).zip(grids::of(header).into_iter().chain([grids::UNKNOWN])) {
        records.tile_count(sub_file, grid);
        entries(records, sub_file, grid);
        corners(records, sub_file, grid);
    }
}

/// Entries spread over the grid, the last of them, and one past it.
fn entries(records: &mut Records, sub_file: u64, grid: Grid) {
    let tiles = grids::some(&grid, ENTRIES).chain([grids::tiles(&grid)]);
    tiles.for_each(|tile| records.entry(sub_file, grid, tile));
}

/// The corners of the grid, and the places diagonally outside of two of them.
fn corners(records: &mut Records, sub_file: u64, grid: Grid) {
    let Grid { x_min, y_min, x_max, y_max } = grid;
    let corners = [(x_min, y_min), (x_max, y_min), (x_min, y_max), (x_max, y_max)];
    let before = (x_min.saturating_sub(1), y_min.saturating_sub(1));
    let behind = (x_max.saturating_add(1), y_max.saturating_add(1));
    for (x, y) in corners.into_iter().chain([before, behind]) {
        records.tile_index(sub_file, grid, x, y);
    }
}
