//! The records of a run: each operation with its input.

use std::io;
use std::path::Path;

use mapsforge_rs::grid::Grid;

use super::Run;
use crate::records::{self, Record};

/// Which program a run's two files are for.
#[derive(Clone, Copy, PartialEq)]
pub enum Form {
    /// Opening maps, cut and damaged ones too: `headers`.
    Headers,
    /// Index, tags and columns: `indexes`. An `M` answers nothing there.
    Indexes,
}

/// Records in the order of the run; an operation may come twice, since the map may have changed.
#[derive(Default)]
pub struct Records(Vec<Record>);

impl Records {
    /// The map that the records behind this one are about.
    pub fn map(&mut self, map: &[u8]) {
        self.add(b'M', map);
    }

    pub fn all_cuts(&mut self) {
        self.add(b'C', &[]);
    }

    pub fn all_damages(&mut self) {
        self.add(b'D', &[]);
    }

    pub fn cut(&mut self, length: usize) {
        self.add(b'c', &(length as u32).to_be_bytes());
    }

    pub fn damage(&mut self, place: usize, byte: u8) {
        self.add(b'd', &[&(place as u32).to_be_bytes(), &[byte][..]].concat());
    }

    pub fn zoom(&mut self, zoom: u8) {
        self.add(b'z', &[zoom]);
    }

    pub fn poi_tag(&mut self, k: u16) {
        self.add(b'p', &k.to_be_bytes());
    }

    pub fn way_tag(&mut self, k: u16) {
        self.add(b'w', &k.to_be_bytes());
    }

    pub fn tile_count(&mut self, sub_file: u64, grid: Grid) {
        self.add(b'n', &on_grid(sub_file, grid, &[]));
    }

    pub fn tile_index(&mut self, sub_file: u64, grid: Grid, x: i32, y: i32) {
        let position = [x.to_be_bytes(), y.to_be_bytes()];
        self.add(b'i', &on_grid(sub_file, grid, position.as_flattened()));
    }

    pub fn entry(&mut self, sub_file: u64, grid: Grid, tile: u64) {
        self.add(b'e', &on_grid(sub_file, grid, &tile.to_be_bytes()));
    }

    pub fn column(&mut self, longitude: f64, zoom: u8) {
        self.add(b'l', &[&longitude.to_bits().to_be_bytes(), &[zoom][..]].concat());
    }

    pub fn longitude(&mut self, column: u32, zoom: u8) {
        self.add(b'x', &[&column.to_be_bytes(), &[zoom][..]].concat());
    }

    /// Keeps what is asked of the program.
    fn of_form(self, form: Form) -> Vec<Record> {
        let mut records = Vec::<Record>::new();
        for record in self.0 {
            let headers = matches!(record.0, b'C' | b'D' | b'c' | b'd');
            if record.0 != b'M' && headers != (form == Form::Headers) {
                continue;
            }
            // a map that no index is asked of is not needed
            let unused = |last: &mut Record| last.0 == b'M' && record.0 == b'M';
            if form == Form::Indexes {
                records.pop_if(unused);
            }
            records.push(record);
        }
        records
    }

    /// All of them, for whatever program.
    #[cfg(feature = "both")]
    pub fn records(&self) -> &[Record] {
        &self.0
    }

    pub fn write(self, folder: &Path, form: Form) -> io::Result<()> {
        let records = self.of_form(form);
        let mut run = Run::default();
        let line = |(operation, input): &Record| {
            let mut answer = run.caught_answer(*operation, input);
            if *operation == b'M' && form == Form::Indexes {
                answer.clear();
            }
            records::line(*operation, &answer)
        };
        let lines: String = records.iter().map(line).collect();
        records::write(folder, &records, lines.as_bytes())
    }

    fn add(&mut self, operation: u8, input: &[u8]) {
        self.0.push((operation, input.to_vec()));
    }
}

/// The front of an input about a sub file.
pub fn on_grid(sub_file: u64, grid: Grid, rest: &[u8]) -> Vec<u8> {
    let sides = [grid.x_min, grid.y_min, grid.x_max, grid.y_max].map(i32::to_be_bytes);
    [&sub_file.to_be_bytes(), sides.as_flattened(), rest].concat()
}
