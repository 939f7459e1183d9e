//! A map, and the grids of its sub files.

use std::f64::consts::PI;
use std::fs;
use std::path::Path;
use std::process;

use mapsforge_rs::grid::{self, Grid};
use mapsforge_rs::types::{BoundingBox, MapFile, ZoomInterval};

use crate::crafted;
use crate::source::Source;

pub struct Map {
    pub name: String,
    pub bytes: Vec<u8>,
    pub sub_files: Vec<SubFile>,
}

pub struct SubFile {
    /// The place of its first entry.
    index: usize,
    /// As stored.
    size: u64,
    pub grid: Grid,
    pub lowest_zoom: u8,
    /// The tiles that both sides read.
    pub tiles: Vec<usize>,
    /// Those that the index marks empty: ours reads nothing of them, and the Rust the next tile's bytes.
    pub empty: Vec<usize>,
    /// How many are left out besides: ours refuses them since the next entry is cut off, at which the Rust does not look.
    pub cut_off: u64,
}

impl Map {
    /// How many tiles are marked empty, and how many have no next entry.
    pub fn left_out(&self) -> [u64; 2] {
        let empty = self.sub_files.iter().map(|sub_file| sub_file.empty.len() as u64).sum();
        [empty, self.sub_files.iter().map(|sub_file| sub_file.cut_off).sum()]
    }

    /// Its bytes with every tile marked empty: each entry has the sub file's size for its offset, and no water mark.
    pub fn all_empty(&self) -> Vec<u8> {
        let mut bytes = self.bytes.clone();
        for SubFile { index, size, grid, .. } in &self.sub_files {
            for tile in 0..grid.tiles().expect("it was counted before") as usize {
                bytes[index + 5 * tile..][..5].copy_from_slice(&size.to_be_bytes()[3..]);
            }
        }
        bytes
    }

    /// A file that is no map to measure ends the program, with status 2.
    pub fn read(file: &str) -> Self {
        Map::of(file).unwrap_or_else(|why| {
            eprintln!("bench: {file} {why}");
            process::exit(2)
        })
    }

    fn of(file: &str) -> Result<Self, String> {
        let read = || fs::read(file).map_err(|error| format!("cannot be read: {error}"));
        let bytes = crafted::map(file).map_or_else(read, Ok)?;
        let name = Path::new(file).file_name().expect("a file").to_string_lossy().into_owned();
        let sub_files = sub_files(&bytes)?;
        Ok(Map { name, bytes, sub_files })
    }
}

fn sub_files(map: &[u8]) -> Result<Vec<SubFile>, String> {
    let opened = MapFile::from_source(Source::new(map));
    let mut file = opened.map_err(|error| format!("is not a map that opens: {error}"))?;
    let count = file.header.zoom_interval_configuration.len();
    (0..count).map(|number| sub_file(&mut file, number)).collect()
}

/// The tiles by their entries, as the Rust reads them.
fn sub_file(file: &mut MapFile<Source>, number: usize) -> Result<SubFile, String> {
    let ZoomInterval {
        base_zoom_level,
        min_zoom_level: lowest_zoom,
        sub_file_start,
        sub_file_size: size,
        ..
    } = file.header.zoom_interval_configuration[number];
    // in a debug map the index stands behind a signature
    let index = sub_file_start as usize + if file.header.flags & 0x80 == 0 { 0 } else { 16 };
    let grid = grid_of(&file.header.bounding_box, base_zoom_level);
    let tiles = grid.tiles().ok_or("has a bounding box that gives no grid of tiles")? as usize;
    grid::lend(grid);
    let offset = |tile| file.tile_index_entry(number, tile).ok().map(|entry| entry.offset);
    let mut offsets: Vec<Option<u64>> = (0..tiles).map(offset).collect();
    offsets.push(Some(size));
    let (tiles, empty) = (Vec::new(), Vec::new());
    let mut found = SubFile { index, size, grid, lowest_zoom, tiles, empty, cut_off: 0 };
    for (tile, pair) in offsets.windows(2).enumerate() {
        match pair {
            [Some(own), Some(next)] if own == next => found.empty.push(tile),
            [Some(_), None] => found.cut_off += 1,
            _ => found.tiles.push(tile),
        }
    }
    Ok(found)
}

/// The Rust's own grid, reckoned as its `get_tiles` does.
fn grid_of(bounds: &BoundingBox, zoom: u8) -> Grid {
    let n = (1u64 << zoom) as f64;
    let column = |longitude: f64| (n * (longitude + 180.0) / 360.0) as i32;
    let row = |latitude: f64| {
        let angle = latitude * PI / 180.0;
        ((1.0 - (angle.tan() + 1.0 / angle.cos()).ln() / PI) / 2.0 * n) as i32
    };
    Grid {
        x_min: column(bounds.min_lon),
        y_min: row(bounds.max_lat),
        x_max: column(bounds.max_lon),
        y_max: row(bounds.min_lat),
    }
}
